#!/usr/bin/env python3
"""hostile_lists.py OVCACHE [--count N] [--seed N]: lists of payloads, spoilt at random, read by a cache that runs.

Small lists in each form that is taken are cut, doubled, and sprinkled with octets; the cache reads each of them again (`reread` at its
control socket), and what it serves then, or that it refuses the list, is compared with what a reader of this script makes of
it, which was written after docs/PROTOCOL.md, "Payload lists", and knows nothing of the program. Ends with 1 where they differ."""
import argparse
import json
import os
import random
import re
import socket
import subprocess
import sys
import tempfile
import time

PAYLOADS = [b"ASN", b"IP Prefix", b"Max Length", b"Trust Anchor"]
HEADERS = [PAYLOADS, PAYLOADS + [b"Expires"], [b"URI", b"ASN", b"IP Prefix", b"Max Length", b"Not Before", b"Not After"]]
ROWS = [["AS64500", "10.0.0.0/24", "24", "ta"], ["64501", "10.0.1.0/24", "25", 't"a2'], ["as4294967295", "2001:db8::/32", "48", "x"],
        ["AS0", "0.0.0.0/0", "", "y,z"]]
SPRINKLES = [b'"', b",", b"\n", b"\r", b"{", b"}", b"[", b"]", b":", b"\\", b"0", b"1", b"9", b"-", b"+", b".", b"e", b"E", b" ", b"\t", b"\0", b"\xff",
             b"\xef\xbb\xbf", b"\xc3", b"\\u0041", b"\\ud800", b"\\udc00", b"\\ud800\\udc00", b"null", b"true", b'"roas"', b'"asn"', b"AS", b"/", b"33", b'""']


class Refused(Exception):
    pass


def known(value):
    if value is None:
        raise Refused()
    return value


# ---------------------------------------------------------------- what a list means

def asn_of(text):
    found = known(re.fullmatch(rb"(?:[aA][sS])?([0-9]{1,10})", text))
    return int(found[1]) if int(found[1]) < 2 ** 32 else known(None)


def prefix_of(text):
    parts = known(re.fullmatch(rb"(\d{1,3})\.(\d{1,3})\.(\d{1,3})\.(\d{1,3})/(\d{1,2})", text)).groups()
    *octets, length = map(int, parts)
    bits = int.from_bytes(bytes(octets), "big") if max(octets) < 256 else known(None)
    if any(len(part) > 1 and part.startswith(b"0") for part in parts) or length > 32 or bits & (1 << 32 - length) - 1:
        raise Refused()
    return bits, length, b".".join(parts[:4]).decode()


def payload_of(asn, prefix, most):
    """What an entry says, or none where it is of IPv6."""
    asn = asn_of(asn)
    if b":" in prefix:
        return None
    _, length, address = prefix_of(prefix)
    if most is None or not re.fullmatch(rb"[0-9]{1,2}", most or b"%d" % length):
        raise Refused()
    most = int(most or length)
    return f"{address}/{length}-{most} AS{asn}" if length <= most <= 32 else known(None)


def records_of(text):
    """The records of comma-separated values: quotes count where a field begins with one."""
    records, record, field, state = [], [], b"", "record"
    for octet in (bytes([number]) for number in text):
        if state == "record" and octet in b"\r\n":
            continue
        if state in ("record", "field"):
            state = "quoted" if octet == b'"' else "plain"
            if state == "quoted":
                continue
        if state == "quoted":
            state, field = ("quote", field) if octet == b'"' else ("quoted", field + octet)
        elif state == "quote" and octet == b'"':
            state, field = "quoted", field + octet
        elif octet in b",\r\n":
            record, field, state = record + [field], b"", "field"
            if octet != b",":
                records, record, state = records + [record], [], "record"
        else:
            state, field = "plain", field + octet
    return records if state == "record" else records + [record + [field]]


def rows_mean(text):
    header, *rows = known(records_of(text[3:] if text.startswith(b"\xef\xbb\xbf") else text) or None)
    if header not in HEADERS or any(len(row) != len(header) for row in rows[:1]):
        raise Refused()
    front = len(header) == 6
    for row in rows:
        if len(row) != len(header):
            raise Refused()
        yield payload_of(*row[front:front + 3])


def is_text(value):
    """Whether no text in it has half of a surrogate pair."""
    if isinstance(value, str):
        return not any(0xD800 <= ord(letter) < 0xE000 for letter in value)
    return all(map(is_text, value)) if isinstance(value, (list, tuple)) else True


def refuse(_word):
    raise ValueError


def octets(value, kinds):
    """The octets of a number (`#`) or a text, where it is of these kinds."""
    if isinstance(value, tuple) and value[0] == "#" and "#" in kinds:
        return value[1].encode()
    return value.encode() if isinstance(value, str) and "text" in kinds else None


def entries_mean(text):
    try:
        value = json.loads(text.decode(), object_pairs_hook=lambda members: ("{", members), parse_int=lambda word: ("#", word),
                           parse_float=lambda word: ("#", word), parse_constant=refuse)
    except (ValueError, RecursionError):
        raise Refused() from None
    lists = [value for name, value in value[1] if name == "roas"] if is_text(value) and value[0] == "{" else []
    if len(lists) != 1 or not isinstance(lists[0], list):
        raise Refused()
    for entry in lists[0]:
        if not isinstance(entry, tuple) or entry[0] != "{":
            raise Refused()
        entry = dict(entry[1])
        asn, prefix = known(octets(entry.get("asn"), ("#", "text"))), octets(entry.get("prefix"), ("text",))
        yield payload_of(asn, prefix if prefix is not None else b"", octets(entry.get("maxLength"), ("#",)) or None)


def meaning(text):
    """The payloads of a list, sorted, or none where it is refused."""
    reader = entries_mean if text.lstrip(b" \t\r\n").startswith(b"{") else rows_mean
    try:
        return sorted({payload for payload in reader(text) if payload is not None})
    except Refused:
        return None


# ---------------------------------------------------------------- spoilt lists

def quoted(chance, field):
    return '"' + field.replace('"', '""') + '"' if chance.random() < 0.3 or "," in field or '"' in field else field


def rows(chance):
    header, ends = chance.choice(HEADERS), chance.choice(["\n", "\r\n"])
    front, behind = (["rsync://host/1.roa"], ["a", "b"]) if len(header) == 6 else ([], ["ta", "1999999999"])
    lines = [[name.decode() for name in header]] + [(front + row[:3] + behind)[:len(header)] for row in ROWS]
    return (ends.join(",".join(quoted(chance, field) for field in line) for line in lines) + ends).encode()


def entries(chance):
    listed = [{"asn": chance.choice([64500, "AS64500", "as7"]), "prefix": "10.0.0.0/24", "maxLength": 24, "ta": "a\u00e9\n", "expires": 1.5e9},
              {"asn": 1, "prefix": "2001:db8::/32", "maxLength": 48},
              {"prefix": "0.0.0.0/0", "asn": "0", "maxLength": 0, "x": [{}, [], None, True, -0.5e-3]}]
    whole = {"metadata": {"a": [1, {"roas": 2}]}, "roas": listed, "aspas": []}
    return json.dumps(whole, ensure_ascii=chance.random() < 0.5, indent=chance.choice([None, 1])).encode()


def spoilt(chance, text):
    text = bytearray(text)
    for _ in range(chance.choice([0, 1, 1, 1, 2, 3])):
        kind, at = chance.randrange(6), chance.randrange(len(text) + 1)
        if kind == 0:
            text[at:at + 1] = bytes([chance.randrange(256)])
        elif kind < 3:
            text[at:at + kind - 1] = chance.choice(SPRINKLES)
        elif kind == 3:
            del text[at:at + chance.choice([1, 1, 2, 5, 20])]
        elif kind == 4:
            other = chance.randrange(len(text) + 1)
            text[at:at] = text[min(at, other):max(at, other)][:60]
        elif chance.random() < 0.3:
            del text[at:]
    return bytes(text)


# ---------------------------------------------------------------- the cache

def put(text):
    with open("list.new", "wb") as file:
        file.write(text)
    os.rename("list.new", "list")


def ask(line):
    with socket.socket(socket.AF_UNIX) as operator:
        operator.settimeout(60)
        operator.connect("control")
        operator.sendall(line.encode() + b"\n")
        answer = b""
        while not re.search(rb"(^|\n)(ok|end|refused|bad line)[^\n]*\n$", answer):
            answer += operator.recv(65536)
        return answer.decode()


def served(text):
    """What the cache serves behind this list, or none where it refuses it."""
    put(text)
    return sorted(ask("show payloads").splitlines()[:-1]) if ask("reread").startswith("ok") else None


def begin(program):
    put(b"ASN,IP Prefix,Max Length,Trust Anchor\n")
    with open("settings", "w") as file:
        file.write('listen = "127.0.0.1:0"\ncsv = "list"\nsession = 7\ncontrol = "control"\n')
    cache = subprocess.Popen([program, "settings"], stdin=subprocess.DEVNULL)
    ends = time.monotonic() + 60
    while cache.poll() is None and time.monotonic() < ends:
        with socket.socket(socket.AF_UNIX) as operator:
            if operator.connect_ex("control") == 0:
                return cache
        time.sleep(0.1)
    sys.exit("the cache doesn't begin")


def main():
    parser = argparse.ArgumentParser()
    parser.add_argument("ovcache")
    parser.add_argument("--count", type=int, default=3000)
    parser.add_argument("--seed", type=int, default=1)
    options = parser.parse_args()
    chance, counts, program = random.Random(options.seed), [0, 0], os.path.abspath(options.ovcache)
    with tempfile.TemporaryDirectory() as folder:
        os.chdir(folder)
        cache = begin(program)
        try:
            for number in range(options.count):
                text = spoilt(chance, chance.choice([rows, entries])(chance))
                should, is_so = meaning(text), served(text)
                if should != is_so:
                    print(f"DIFFERENCE at list {number}, seed {options.seed}: {text!r} is {is_so}, and should be {should}")
                    return 1
                counts[should is None] += 1
        finally:
            cache.kill()
            cache.wait()
    print(f"{counts[0]} lists taken and {counts[1]} refused, as the script's own reader has them")
    return 0


sys.exit(main())
