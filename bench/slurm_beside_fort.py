#!/usr/bin/env python3
"""slurm_beside_fort.py OVCACHE [OVBGPD OVCTL] [--seed N]: the same local exceptions (RFC 8416) in a file beside Debian's fort-validator.

A small RPKI of its own is validated by fort, without network, once without a SLURM file and once with it. What the first serves is the
list of two ovcaches, of which one has the same file. Routers are rtrclient of rtr-tools and BIRD, at each of the four, and OVBGPD where
it is given: with the file, behind the plain ovcache and the plain fort, and without it behind both caches that have it. Each must have
the same IPv4 payloads, those that a model of this script says. The files: the RFC's own example, and a thousand filters with a thousand
assertions that a seed draws. Then 50 faulty files, which fort and ovcache must both refuse. It prints counts and 'no difference', or what
differs, and ends with 1.

Where fort is another one, and what is done about it here:
- It serves payloads of IPv6 too, and its SLURM files' IPv6 entries are in force. Those of IPv4 are compared alone.
- The RFC's example has '<some base64 SKI>' in place of keys: fort refuses the whole file ('The decoded SKI must be 20 octets long'),
  ovcache skips entries of BGPsec, whose members it reads as texts alone. The example gets a key and an SKI.
- Of a file that is refused fort says so in its log and serves what it served, at its start the payloads without any; ovcache, at its
  start, ends.
- fort refuses a maxPrefixLength of 0, which only 0.0.0.0/0 can have, and takes that prefix without one; ovcache takes both. It is drawn
  without.
- fort takes a prefix length as '/08' or '/+8', ovcache doesn't. None is drawn.
- fort reads IPv6 prefixes and their maximum lengths, and refuses a file for one. To ovcache a prefix with a colon is one of IPv6, whatever
  else it says, and its entry is skipped. No faulty file has one.
Nothing else was found: a maxPrefixLength that isn't there is the prefix's length for both, and both take an entry twice, and filters and
assertions that lie in each other. rtrclient prints an AS as a signed number, which is read as one without sign. BIRD takes no payload of
0.0.0.0/8, 127.0.0.0/8 or behind 223.255.255.255, so none is drawn.

Wants fort-validator, rtr-tools, bird2 and python3-cryptography."""
import argparse
import base64
import ipaddress
import json
import os
import pathlib
import random
import re
import socket
import subprocess
import sys
import tempfile
import time

from cryptography.hazmat.primitives import serialization
from cryptography.hazmat.primitives.asymmetric import ec

sys.dont_write_bytecode = True
import small_rpki

EXAMPLE = pathlib.Path(__file__).resolve().parent.parent / "crates/play_slurm/data/rfc8416.in"
# Of the RFC's example: what its filters take and pass by, and what it asserts.
ROWS = ["192.0.2.0/24 24 65001", "192.0.2.128/25 32 65002", "192.0.0.0/16 24 65001", "198.51.100.0/24 26 64497", "198.51.100.64/26 26 64497",
        "198.51.0.0/16 24 64497", "198.51.100.0/24 24 64498", "198.51.100.0/24 26 64496", "203.0.113.0/24 24 64496", "10.0.0.0/8 24 0",
        "10.0.0.0/8 32 4294967295", "2001:db8::/32 32 64496", "2001:db8:1::/48 48 65001"]
BIRD = """router id 192.0.2.9;
roa4 table r4;
protocol device {{}}
protocol rpki cache {{ roa4 {{ table r4; }}; remote 127.0.0.1 port {port}; retry 5; refresh 60; expire 600; }}
"""
SPEAKER = 'as = 65000\nidentifier = "192.0.2.1"\ncommands = "{name}.commands"\ncontrol = "{name}.socket"\ncache = "127.0.0.1:{port}"\ncache_retry = 1\n'
running = []


def begin(*words, log):
    running.append(subprocess.Popen(words, stdin=subprocess.DEVNULL, stdout=open(log, "w"), stderr=subprocess.STDOUT))
    return running[-1]


def until(test, what, seconds=120):
    ends = time.monotonic() + seconds
    while not (found := test()):
        if time.monotonic() > ends or any(process.poll() for process in running):
            for log in sorted(pathlib.Path(".").glob("*.log")):
                print(f"-- {log}\n{log.read_text()[-1000:]}")
            sys.exit(f"{what}: it doesn't come, or a program has ended")
        time.sleep(0.1)
    return found


def free_port():
    with socket.socket() as probe:
        probe.bind(("127.0.0.1", 0))
        return probe.getsockname()[1]


# ---------------------------------------------------------------- payloads

def payload(prefix, most, asn):
    """(prefix, maximum length, AS)."""
    return ipaddress.ip_network(prefix), int(most), int(asn) % 2**32


def is_four(prefix):
    return ":" not in str(prefix)


def text(found):
    return "{}-{} AS{}".format(*found)


def begins(prefix, length):
    return int(prefix.network_address) >> 32 - length


def filters_of(slurm):
    """Of the filters that concern IPv4 the first bits and their number, and the AS; None: any."""
    for entry in slurm["validationOutputFilters"]["prefixFilters"]:
        if is_four(entry.get("prefix", "")):
            net = ipaddress.ip_network(entry.get("prefix", "0.0.0.0/0"))
            yield begins(net, net.prefixlen), net.prefixlen, entry.get("asn")


def under(slurm, payloads):
    """RFC 8416 section 3, by itself, of payloads of IPv4."""
    filters = list(filters_of(slurm))

    def is_filtered(prefix, asn):
        return any(of in (None, asn) and length <= prefix.prefixlen and bits == begins(prefix, length) for bits, length, of in filters)

    asserted = (entry for entry in slurm["locallyAddedAssertions"]["prefixAssertions"] if is_four(entry["prefix"]))
    kept = {it for it in payloads if not is_filtered(it[0], it[2])}
    return kept | {payload(it["prefix"], it.get("maxPrefixLength", it["prefix"].split("/")[1]), it["asn"]) for it in asserted}


def example():
    """The RFC's file, with an SKI and a key in their places, and payloads for it."""
    case = EXAMPLE.read_text().split("# case ")[1]
    slurm = json.loads(case[case.index("{"):case.rindex("}") + 1])
    public = ec.generate_private_key(ec.SECP256R1()).public_key()
    info = public.public_bytes(serialization.Encoding.DER, serialization.PublicFormat.SubjectPublicKeyInfo)
    held = {"SKI": bytes(20), "routerPublicKey": info}
    for entry in slurm["validationOutputFilters"]["bgpsecFilters"] + slurm["locallyAddedAssertions"]["bgpsecAssertions"]:
        entry.update({name: base64.urlsafe_b64encode(held[name]).decode().rstrip("=") for name in held if name in entry})
    return slurm, {payload(*row.split()) for row in ROWS}


def prefix_of(chance):
    """Of addresses that BIRD takes: none of 0.0.0.0/8, 127.0.0.0/8, or behind 223.255.255.255."""
    length = chance.choice([8, 12, 16, 19, 20, 21, 22, 23, 24, 24, 24, 28, 32])
    first = chance.choice([octet for octet in range(1, 224) if octet != 127])
    return ipaddress.ip_network((first << 24 | chance.getrandbits(24), length), strict=False)


def above(chance, prefix):
    return str(prefix.supernet(new_prefix=chance.randint(max(0, prefix.prefixlen - 4), prefix.prefixlen)))


def drawn(chance, count=1000):
    """So many filters and assertions, and four times the payloads: of 40 ASes, and few of IPv6."""
    ases = [0, 1, 65535, 65536, 2**32 - 1] + chance.sample(range(2, 2**32 - 1), 35)
    listed = {payload(prefix, chance.randint(prefix.prefixlen, 32), chance.choice(ases)) for prefix in (prefix_of(chance) for _ in range(4 * count))}
    some, filters, asserted = sorted(listed), [], []
    for at in range(count):
        prefix, most, asn = chance.choice(some)
        near = {"prefix": above(chance, prefix)} if at % 3 else {"prefix": str(prefix)}
        kinds = [near, {**near, "asn": asn}, {**near, "asn": chance.choice(ases)}, {"prefix": str(prefix_of(chance))}, {"asn": chance.getrandbits(32)},
                 {"prefix": "2001:db8::/32"}, {"prefix": "2001:db8::/32", "asn": asn}]
        filters.append(kinds[chance.choices(range(7), [3, 20, 10, 1, 10, 1, 1])[0]])
    filters += [{"asn": ases[-1]}, {"prefix": "0.0.0.0/0", "asn": ases[-2]}, filters[0]]
    for at in range(count):
        prefix, most, asn = chance.choice(some) if at % 2 else payload(prefix_of(chance), 32, chance.choice(ases))
        kinds = [{"maxPrefixLength": most}, {"maxPrefixLength": chance.randint(prefix.prefixlen, 32)}, {}]
        asserted.append({"prefix": str(prefix), "asn": asn, **chance.choice(kinds)})
    asserted += [{"prefix": "2001:db8:2::/48", "asn": 1}, {"prefix": "0.0.0.0/0", "asn": 1}, asserted[0]]
    slurm = {"slurmVersion": 1, "validationOutputFilters": {"prefixFilters": filters[-count:], "bgpsecFilters": []},
             "locallyAddedAssertions": {"prefixAssertions": asserted[-count:], "bgpsecAssertions": []}}
    return slurm, listed | {payload("2001:db8::/32", 48, asn) for asn in ases}


def faulty():
    """Files that RFC 8416 doesn't let in, by what is wrong with each; the first is a good one."""
    net = {"prefix": "10.0.0.0/8"}

    def file(filters=(net,), asserted=(), **more):
        out, added = {"prefixFilters": [*filters], "bgpsecFilters": []}, {"prefixAssertions": [*asserted], "bgpsecAssertions": []}
        return {"slurmVersion": 1, "validationOutputFilters": out, "locallyAddedAssertions": added, **more}

    files = {"nothing": file(), "version 2": file(slurmVersion=2), "a version as text": file(slurmVersion="1"), "an unknown member": file(other=1)}
    files["filters that are no object"] = file(validationOutputFilters=[])
    for part in file():
        files[f"no {part}"] = {name: value for name, value in file().items() if name != part}
    for part, name in (("validationOutputFilters", "prefixFilters"), ("validationOutputFilters", "bgpsecFilters"), ("locallyAddedAssertions", "prefixAssertions"), ("locallyAddedAssertions", "bgpsecAssertions")):
        files[f"no {name}"], files[f"{name} that are no list"], files[f"more beside {name}"] = file(), file(), file()
        del files[f"no {name}"][part][name]
        files[f"{name} that are no list"][part][name] = {}
        files[f"more beside {name}"][part]["other"] = []
    filters = [1, {}, {"comment": "all"}, {**net, "comment": 1}, {**net, "other": 1}, {**net, "asn": None}, {**net, "maxPrefixLength": 8}, {"asn": -1}, {"asn": 2**32}]
    filters += [{"prefix": prefix} for prefix in ("10.0.0.0/33", "10.0.0.1/8", "10.0.0.0", " 10.0.0.0/8", "010.0.0.0/8")]
    files.update({f"the filter {json.dumps(it)}": file([it]) for it in filters})
    asserted = [net, {"asn": 1}, {**net, "asn": "1"}, {**net, "asn": 1.5}, {**net, "asn": 1, "maxPrefixLength": 7}, {**net, "asn": 1, "maxPrefixLength": 33}, {**net, "asn": 1, "maxPrefixLength": "8"}]
    files.update({f"the assertion {json.dumps(it)}": file([], [it]) for it in asserted})
    for entry in ({}, {"SKI": 1}, {"asn": 1, "other": 2}):
        files[f"the BGPsec filter {json.dumps(entry)}"] = file(validationOutputFilters={"prefixFilters": [], "bgpsecFilters": [entry]})
    texts = {name: json.dumps(it) for name, it in files.items()}
    whole = texts["nothing"]
    texts.update({"a torn file": whole[:-1], "more behind": whole + "{}", "an empty file": "", "an array": f"[{whole}]", "a byte order mark": "\ufeff" + whole})
    return {**texts, "a version twice": '{"slurmVersion": 1, ' + whole[1:], "a prefix twice": whole.replace('"prefix"', '"prefix": "10.0.0.0/8", "prefix"')}


# ---------------------------------------------------------------- caches

def write_rpki(payloads):
    """A ROA for each AS, in the layout of fort's local repository, and the trust anchor's locator."""
    roas = {}
    for serial, asn in enumerate(sorted({asn for _, _, asn in payloads}), 2):
        own = sorted((it for it in payloads if it[2] == asn), key=text)
        families = []
        for code, wanted in ((b"\0\1", True), (b"\0\2", False)):
            rows = [(prefix.network_address.packed, prefix.prefixlen, most) for prefix, most, _ in own if is_four(prefix) == wanted]
            families += [(code, rows)] if rows else []
        roas[f"{serial}.roa"] = small_rpki.roa(serial, f"{serial}.roa", asn, *families, every=True)
    point, anchor = pathlib.Path("rpki/rpki.example/repo"), pathlib.Path("rpki/rpki.example/ta")
    for folder in (point, anchor):
        folder.mkdir(parents=True, exist_ok=True)
    for file, octets in small_rpki.repository(roas).items():
        (point / file).write_bytes(octets)
    (anchor / "ta.cer").write_bytes(small_rpki.anchor_certificate())
    pathlib.Path("rpki.tal").write_text("rsync://rpki.example/ta/ta.cer\n\n" + base64.encodebytes(small_rpki.ANCHOR.info).decode())


def fort(name, *more):
    """The port of a fort that serves."""
    port = free_port()
    begin("fort", "--mode=server", "--server.address=127.0.0.1", f"--server.port={port}", "--tal=rpki.tal", "--local-repository=rpki",
          "--work-offline=true", "--log.output=console", *more, log=f"{name}.log")
    log = pathlib.Path(f"{name}.log")
    until(lambda: "validation cycle successfully ended" in log.read_text(), "fort's validation")
    if "ERR" in log.read_text():
        sys.exit(f"fort refuses: {log.read_text()}")
    return port


def ovcache(program, name, more=""):
    port = free_port()
    pathlib.Path(f"{name}.toml").write_text(f'listen = "127.0.0.1:{port}"\ncsv = "list.csv"\nsession = 7\nlog = true\n{more}')
    begin(program, f"{name}.toml", log=f"{name}.log")
    until(lambda: "listens at" in pathlib.Path(f"{name}.log").read_text(), name)
    return port


def write_list(payloads):
    rows = sorted(f"AS{asn},{prefix},{most},test\n" for prefix, most, asn in payloads)
    pathlib.Path("list.csv").write_text("ASN,IP Prefix,Max Length,Trust Anchor\n" + "".join(rows))


# ---------------------------------------------------------------- routers

def rtrclient(port):
    """All payloads that rtrclient has."""
    ran = subprocess.run(["rtrclient", "-e", "-t", "csv", "tcp", "127.0.0.1", str(port)], capture_output=True, text=True, timeout=120)
    rows = re.findall(r"(?m)^([0-9a-f.:]+), (\d+), (\d+), (-?\d+)$", ran.stdout)
    return {payload(f"{address}/{length}", most, asn) for address, length, most, asn in rows}


def four(payloads):
    return {it for it in payloads if is_four(it[0])}


def bird(port):
    """The payloads of BIRD's roa4 table."""
    pathlib.Path("bird.conf").write_text(BIRD.format(port=port))
    process = begin("bird", "-f", "-c", "bird.conf", "-s", "bird.socket", "-P", "bird.pid", log="bird.log")
    ask = lambda line: subprocess.run(["birdc", "-s", "bird.socket", line], capture_output=True, text=True, timeout=60).stdout
    until(lambda: re.search(r"Status: +Established", ask("show protocols all cache")), "BIRD's cache")
    rows = re.findall(r"(?m)^(\S+)-(\d+) AS(\d+) ", ask("show route table r4"))
    end(process)
    pathlib.Path("bird.socket").unlink(missing_ok=True)
    return {payload(*row) for row in rows}


def ovbgpd(programs, port, more=""):
    """The payloads in force at a speaker behind the cache of this port."""
    name = f"speaker{len(running)}"
    pathlib.Path(f"{name}.commands").write_text("reach 192.0.2.0/24 10\n")
    pathlib.Path(f"{name}.toml").write_text(SPEAKER.format(name=name, port=port) + more)
    pathlib.Path(f"{name}.socket").unlink(missing_ok=True)
    process = begin(programs[0], f"{name}.toml", log=f"{name}.log")
    ask = lambda line: subprocess.run([programs[1], f"{name}.socket", *line.split()], capture_output=True, text=True, timeout=60).stdout
    until(lambda: os.path.exists(f"{name}.socket") and "synced" in ask("show cache").lower(), "the speaker's load")
    rows = re.findall(r"(?m)^(\S+)-(\d+) AS(\d+)$", ask("show payloads"))
    end(process)
    return {payload(*row) for row in rows}


def end(process):
    running.remove(process)
    process.terminate()
    try:
        process.wait(20)
    except subprocess.TimeoutExpired:
        process.kill()
        process.wait()


# ---------------------------------------------------------------- the comparison

def difference(what, found, wanted):
    """Tells what a router has, and how many differences that is: 0 or 1."""
    lacking, besides = sorted(map(text, wanted - found)), sorted(map(text, found - wanted))
    said = f"DIFFERS: lacks {len(lacking)} {lacking[:5]}, has besides {len(besides)} {besides[:5]}"
    print(f"  {what}: {len(found)} payloads, {said if lacking or besides else 'no difference'}", flush=True)
    return int(found != wanted)


def compare(what, slurm, listed, programs):
    """How many routers have other payloads than they are to."""
    pathlib.Path("slurm.json").write_text(json.dumps(slurm))
    write_rpki(listed)
    plain_fort, own_fort = fort("fort"), fort("fort_slurm", "--slurm=slurm.json")
    base = rtrclient(plain_fort)
    write_list(base)
    plain, own = ovcache(programs[0], "plain"), ovcache(programs[0], "own", 'slurm = "slurm.json"\n')
    wanted = under(slurm, four(base))
    filters, asserted = slurm["validationOutputFilters"]["prefixFilters"], slurm["locallyAddedAssertions"]["prefixAssertions"]
    print(f"{what}: {len(filters)} filters and {len(asserted)} assertions; of {len(four(base))} payloads {len(four(base) - wanted)} go, and {len(wanted - four(base))} come", flush=True)
    differences = difference("fort without a file, as it was drawn", base, listed)
    for name, port, right in (("fort alone", plain_fort, four(base)), ("ovcache alone", plain, four(base)), ("fort with the file", own_fort, wanted), ("ovcache with the file", own, wanted)):
        differences += difference(f"rtrclient at {name}", four(rtrclient(port)), right) + difference(f"BIRD at {name}", bird(port), right)
    if programs[1]:
        for name, port, more in (("plain ovcache, itself with the file", plain, True), ("plain fort, itself with the file", plain_fort, True), ("ovcache with the file", own, False), ("fort with the file", own_fort, False)):
            differences += difference(f"ovbgpd at {name}", ovbgpd(programs[1:], port, 'slurm = "slurm.json"\n' if more else ""), wanted)
    return differences


def compare_refusals(program):
    """How many faulty files fort and ovcache don't both refuse."""
    write_rpki({payload("192.0.2.0/24", 24, 65001)})
    write_list({payload("192.0.2.0/24", 24, 65001)})
    pathlib.Path("own.toml").write_text('listen = "127.0.0.1:0"\ncsv = "list.csv"\nsession = 7\nslurm = "slurm.json"\n')
    fort_words = ["fort", "--mode=standalone", "--tal=rpki.tal", "--local-repository=rpki", "--work-offline=true", "--log.output=console", "--slurm=slurm.json"]
    files, differences = faulty(), 0
    for name, said in files.items():
        pathlib.Path("slurm.json").write_text(said)
        of_fort = subprocess.run(fort_words, capture_output=True, text=True, timeout=60)
        ours = subprocess.run([program, "--check", "own.toml"], capture_output=True, text=True, timeout=60)
        refused = "ERR" in of_fort.stdout + of_fort.stderr, ours.returncode != 0
        if refused != (name != "nothing",) * 2:
            differences += 1
            print(f"  {name}: DIFFERS: fort {'refuses' if refused[0] else 'takes'} the file, ovcache {'refuses' if refused[1] else 'takes'} it: {ours.stdout}{ours.stderr}", flush=True)
    print(f"faulty files: {len(files) - 1}, {'no difference' if not differences else f'{differences} DIFFER'}", flush=True)
    return differences


def within(folder, call):
    """What a call in a new folder answers, with all ended that it began."""
    with tempfile.TemporaryDirectory(prefix=folder) as name:
        os.chdir(name)
        try:
            return call()
        finally:
            for process in list(running):
                end(process)
            os.chdir("/")


def main():
    words = argparse.ArgumentParser(description=__doc__.split("\n")[0])
    words.add_argument("programs", nargs="+", metavar="OVCACHE [OVBGPD OVCTL]")
    words.add_argument("--seed", type=int, default=8416)
    given = words.parse_args()
    programs = [os.path.abspath(path) for path in given.programs]
    if len(programs) not in (1, 3):
        words.error("OVCACHE alone, or OVCACHE OVBGPD OVCTL")
    differences = 0
    for what, (slurm, listed) in (("the RFC's example", example()), (f"seed {given.seed}", drawn(random.Random(given.seed)))):
        differences += within("slurm-", lambda: compare(what, slurm, listed, [*programs, None, None][:3]))
    differences += within("slurm-", lambda: compare_refusals(programs[0]))
    print("no difference" if not differences else f"{differences} differences")
    return 1 if differences else 0


if __name__ == "__main__":
    sys.exit(main())
