#!/usr/bin/env python3
"""Every script of play_scripts with each of its requests for memory refused in turn.

    refused_requests.py GROWTHS OVPLAY [--most N] [--jobs N] [--only TEXT]

GROWTHS and OVPLAY are the built programs. Each case of each script is played by `growths` with the first request of its
speaker or cache refused, with the second, and so on until it makes no such request; where a case makes over N requests
(1,000), a spread of N over them is refused. The rows of each case are `alike`: a session that is closed begins anew in the
run without refusals too, and from there on both answer and show the same (crates/paired_plays/src/refused.rt).

PDUs come one a line, and what waits for a cache's client is handed out around its queries, so that what a refused request
comes to can be told apart. Ends with how often requests came to what, and with status 0 where nothing was wrong.
"""
import argparse
import concurrent.futures
import os
import re
import subprocess
import sys
import tempfile

import scripts

COUNTS = re.compile(r": refused (\d+) peers (\d+) cache (\d+) clients (\d+) unseen (\d+)$")


def pdus(held, octets):
    """The pieces of octets that end with a PDU each, behind those that are held, and what is held then; none where it is no PDU."""
    pieces, place = [], 0
    while held is not None:
        whole = held + octets[place:]
        if len(whole) < 8:
            break
        length = int.from_bytes(whole[4:8], "big")
        if not 8 <= length <= 4096:
            held = None
            break
        if len(whole) < length:
            break
        end = place + length - len(held)
        pieces.append(octets[place:end])
        held, place = b"", end
    if place < len(octets):
        pieces.append(octets[place:])
        held = None if held is None else held + octets[place:]
    return pieces, held


def split(script):
    """The script with one PDU in each line, all for the speaker's cache taken before it, and all of a client's octets around a query."""
    found, held = [], {}
    for line in script:
        words = line.split(" ")
        if words[0] in ("rbytes", "cbytes") and re.fullmatch("([0-9A-Fa-f]{2})+", words[-1]):
            stream = " ".join(words[:-1])
            pieces, held[stream] = pdus(held.get(stream, b""), bytes.fromhex(words[-1]))
            for piece in pieces:
                found.append(f"ctake {words[1]} 65536" if words[0] == "cbytes" else "rtake 65536")
                found.append(f"{stream} {piece.hex().upper()}")
                if words[0] == "cbytes":
                    found.append(f"ctake {words[1]} 65536")
            continue
        if words[0] in ("rup", "rfail"):
            held.pop("rbytes", None)
        if words[0] in ("cup", "cdown", "cache"):
            held = {stream: it for stream, it in held.items() if not stream.startswith("cbytes")}
        found.append(line)
    return found


def write_case(folder, name, script, told, rows):
    texts = {"in": "".join(line + "\n" for line in script), "out": told, "again": "", "rows": "".join(row + "\n" for row in rows)}
    for ending, text in texts.items():
        with open(f"{folder}/{name}.{ending}", "w", encoding="latin-1") as it:
            it.write(text)


def growths(program, folder, name):
    ended = subprocess.run([program], cwd=folder, input=name + "\n", capture_output=True, encoding="latin-1")
    return ended.stdout.strip() or f"{name}: ends with status {ended.returncode}"


def requests_of(program, folder, name, script, told):
    """About how many requests a case makes: the least power of two that is past them."""
    nth = 16
    while True:
        write_case(folder, name, script, told, ["alike", "opens", f"from {nth}", "most 1"])
        found = COUNTS.search(growths(program, folder, name))
        if found is None or not any(map(int, found.groups())):
            return nth
        nth *= 2


def play_case(given, folder, case):
    name, script, _told = case
    script, told = scripts.answered(given.ovplay, split(script))
    if not script:
        return f"{name}: refused 0 peers 0 cache 0 clients 0 unseen 0"
    past = requests_of(given.growths, folder, name, script, told)
    rows = ["alike", "opens"]
    if past > given.most:
        rows += [f"step {max(1, past // given.most)}", f"most {given.most}"]
    write_case(folder, name, script, told, rows)
    line = growths(given.growths, folder, name)
    for ending in ("in", "out", "again", "rows"):
        if COUNTS.search(line):
            os.unlink(f"{folder}/{name}.{ending}")
    return line


def play_all(given, cases):
    totals, wrong = [0] * 5, 0
    folder = tempfile.mkdtemp(prefix="refused_requests_")
    with concurrent.futures.ThreadPoolExecutor(given.jobs) as pool:
        for line in pool.map(lambda case: play_case(given, folder, case), cases):
            found = COUNTS.search(line)
            if found is None:
                print(line, flush=True)
                wrong += 1
            else:
                totals = [a + int(b) for a, b in zip(totals, found.groups())]
    if wrong:
        print(f"the cases that went wrong are in {folder}")
    else:
        os.rmdir(folder)
    return totals, wrong


def main():
    parser = argparse.ArgumentParser()
    parser.add_argument("growths", type=os.path.abspath)
    parser.add_argument("ovplay", type=os.path.abspath)
    parser.add_argument("--most", type=int, default=1000)
    parser.add_argument("--jobs", type=int, default=2)
    parser.add_argument("--only", default="")
    given = parser.parse_args()
    cases = [case for case in scripts.cases() if given.only in case[0]]
    totals, wrong = play_all(given, cases)
    refused, peers, cache, clients, unseen = totals
    print(f"{len(cases)} cases, {sum(totals)} requests refused: calls {refused}, peers closed {peers}, "
          f"cache sessions {cache}, clients {clients}, nothing shows {unseen}; {wrong} wrong")
    return 1 if wrong else 0


if __name__ == "__main__":
    sys.exit(main())
