#!/usr/bin/env python3
"""exceptions.py OVBGPD OVCACHE OVCTL [PAYLOADS]: local exceptions (RFC 8416) in a speaker. With the RFC's own example file (section 3.5,
its entries of IPv4 beside those of IPv6 and BGPsec), and with a thousand filters and assertions, the same exceptions go to a cache that
a plain speaker follows, as a SLURM file, and to a speaker that follows a plain cache, as commands: both must come to the same payloads,
which are worked out here too. Then 4,096 filters and 4,096 assertions with so many payloads (400,000): seconds of a load and of a
command, and megabytes. It ends with 1 where one isn't as it should be."""
import ipaddress
import json
import os
import random
import shutil
import subprocess
import sys
import tempfile
import time

OVBGPD, OVCACHE, OVCTL = (os.path.abspath(path) for path in sys.argv[1:4])
PAYLOADS = int(sys.argv[4]) if len(sys.argv) > 4 else 400_000
EXAMPLE = {
    "slurmVersion": 1,
    "validationOutputFilters": {
        "prefixFilters": [
            {"prefix": "192.0.2.0/24", "comment": "All VRPs encompassed by prefix"},
            {"asn": 64496, "comment": "All VRPs matching ASN"},
            {"prefix": "198.51.100.0/24", "asn": 64497, "comment": "All VRPs encompassed by prefix, matching ASN"},
        ],
        "bgpsecFilters": [{"asn": 64496, "comment": "All keys for ASN"}],
    },
    "locallyAddedAssertions": {
        "prefixAssertions": [
            {"asn": 64496, "prefix": "198.51.100.0/24", "comment": "My other important route"},
            {"asn": 64496, "prefix": "2001:DB8::/32", "maxPrefixLength": 48, "comment": "My other important de-aggregated routes"},
        ],
        "bgpsecAssertions": [],
    },
}
failed = []


def look(what, well):
    print("ok" if well else "WRONG", what, flush=True)
    if not well:
        failed.append(what)


def number(prefix):
    net = ipaddress.ip_network(prefix)
    return int(net.network_address), net.prefixlen


def under(slurm, payloads):
    """RFC 8416 section 3, by itself: payloads are (address, length, maximum, AS)."""
    filters = [(number(f["prefix"]) if "prefix" in f else None, f.get("asn")) for f in slurm["validationOutputFilters"]["prefixFilters"] if ":" not in f.get("prefix", "")]
    asserted = set()
    for entry in slurm["locallyAddedAssertions"]["prefixAssertions"]:
        if ":" not in entry["prefix"]:
            address, length = number(entry["prefix"])
            asserted.add((address, length, entry.get("maxPrefixLength", length), entry["asn"]))
    by_as = {asn for prefix, asn in filters if prefix is None}
    by_prefix = {}
    for prefix, asn in filters:
        if prefix is not None:
            by_prefix.setdefault(prefix, set()).add(asn)

    def is_filtered(payload):
        address, length, _, asn = payload
        if asn in by_as:
            return True
        for short in range(length + 1):
            found = by_prefix.get((address >> (32 - short) << (32 - short) if short else 0, short), ())
            if None in found or asn in found:
                return True
        return False

    return {payload for payload in payloads if not is_filtered(payload)} | asserted


def text(payload):
    return f"{ipaddress.ip_address(payload[0])}/{payload[1]}-{payload[2]} AS{payload[3]}"


def write_list(payloads, path="list.csv"):
    with open(path + ".new", "w") as file:
        file.write("ASN,IP Prefix,Max Length,Trust Anchor\n")
        for address, length, most, asn in sorted(payloads):
            file.write(f"AS{asn},{ipaddress.ip_address(address)}/{length},{most},test\n")
    os.rename(path + ".new", path)


def ask(name, line):
    """The rows of an answer, or None where it isn't whole."""
    ran = subprocess.run([OVCTL, f"{name}.socket", *line.split(" ")], capture_output=True, text=True, timeout=300)
    rows = ran.stdout.splitlines()
    return [row for row in rows if row not in ("end", "ok")] if ran.returncode == 0 else None


def cache(port, slurm=None):
    with open("cache.toml", "w") as file:
        file.write(f'listen = "127.0.0.1:{port}"\ncsv = "list.csv"\nsession = 7\n' + (f'slurm = "{slurm}"\n' if slurm else ""))
    return subprocess.Popen([OVCACHE, "cache.toml"], stdout=subprocess.DEVNULL, stderr=subprocess.DEVNULL)


def speaker(name, port, commands=""):
    with open(f"{name}.commands", "w") as file:
        file.write("reach 192.0.2.0/24 10\n" + commands)
    with open(f"{name}.toml", "w") as file:
        file.write(f'as = 65000\nidentifier = "192.0.2.1"\nlisten = "127.0.0.1:0"\ncommands = "{name}.commands"\ncontrol = "{name}.socket"\ncache = "127.0.0.1:{port}"\ncache_retry = 1\n')
    return subprocess.Popen([OVBGPD, f"{name}.toml"], stdout=open(f"{name}.log", "w"), stderr=subprocess.STDOUT)


def settled(name, seconds=120):
    """The payloads in force once the cache's load is complete."""
    ends = time.time() + seconds
    while time.time() < ends:
        if os.path.exists(f"{name}.socket"):
            state = ask(name, "show cache")
            if state and "synced" in " ".join(state).lower():
                return ask(name, "show payloads")
        time.sleep(0.1)
    return None


def compare(what, slurm, payloads, port):
    with open("slurm.json", "w") as file:
        json.dump(slurm, file)
    write_list(payloads)
    wanted = [text(payload) for payload in sorted(under(slurm, payloads))]
    for name, of_cache, of_speaker in (("behind", "slurm.json", ""), ("own", None, "".join(line + "\n" for line in lines_of(slurm)))):
        running = [cache(port, of_cache), speaker(name, port, of_speaker)]
        found = settled(name)
        look(f"{what}: the speaker has the {len(wanted)} payloads, exceptions of {'its cache' if of_cache else 'its own'}", found == wanted)
        if found != wanted and found is not None:
            print("  lacks", sorted(set(wanted) - set(found))[:3], "has besides", sorted(set(found) - set(wanted))[:3])
        for process in running:
            process.kill()
            process.wait()
        port += 1
    return wanted


def usage(process):
    fields = open(f"/proc/{process.pid}/stat").read().rsplit(")", 1)[1].split()
    ticks = int(fields[11]) + int(fields[12])
    peak = next(int(line.split()[1]) // 1024 for line in open(f"/proc/{process.pid}/status") if line.startswith("VmHWM"))
    return ticks / os.sysconf("SC_CLK_TCK"), peak


def drawn(count, of_filters, of_assertions):
    random.seed(8416)
    payloads = {((16 << 24) + (k << 8), 24, 24, 64496 + k % 1000) for k in range(count)}
    some = random.sample(sorted(payloads), of_filters)
    filters = []
    for k, (address, length, most, asn) in enumerate(some):
        prefix = f"{ipaddress.ip_address(address >> 9 << 9)}/23" if k % 3 else f"{ipaddress.ip_address(address)}/24"
        filters.append({"prefix": prefix} if k % 2 else {"prefix": prefix, "asn": asn})
    unique = {json.dumps(entry, sort_keys=True): entry for entry in filters}
    asserted = [{"prefix": f"{ipaddress.ip_address((100 << 24) + (k << 8))}/24", "asn": 65000 + k % 7} for k in range(of_assertions)]
    slurm = {
        "slurmVersion": 1,
        "validationOutputFilters": {"prefixFilters": list(unique.values()), "bgpsecFilters": []},
        "locallyAddedAssertions": {"prefixAssertions": asserted, "bgpsecAssertions": []},
    }
    return payloads, slurm


def lines_of(slurm):
    """The exceptions as commands."""
    for entry in slurm["validationOutputFilters"]["prefixFilters"]:
        if ":" in entry.get("prefix", ""):
            continue
        if "asn" in entry and "prefix" in entry:
            yield f"filter both {entry['prefix']} {entry['asn']}"
        elif "asn" in entry:
            yield f"filter as {entry['asn']}"
        else:
            yield f"filter prefix {entry['prefix']}"
    for entry in slurm["locallyAddedAssertions"]["prefixAssertions"]:
        if ":" in entry["prefix"]:
            continue
        yield f"assert {entry['prefix']} {entry['prefix'].split('/')[1]} {entry['asn']}"


def figures(port):
    payloads, slurm = drawn(PAYLOADS, 4096, 4096)
    write_list(payloads)
    wanted = [text(payload) for payload in sorted(under(slurm, payloads))]
    commands = "".join(line + "\n" for line in lines_of(slurm))
    for name, given in (("plain", ""), ("excepting", commands)):
        serving = cache(port)
        time.sleep(2)
        begins = time.time()
        asked = speaker(name, port, given)
        found = settled(name)
        seconds = time.time() - begins
        spent, peak = usage(asked)
        print(f"{name}: {len(given.splitlines())} exceptions, {PAYLOADS} payloads loaded after {seconds:.2f} s, {spent:.2f} s of processor, {peak} MB", flush=True)
        if given:
            look(f"all {len(wanted)} payloads are those of the exceptions", found == wanted)
            for line in ("nofilter as 64500", "filter as 64500", "nofilter as 64500", "assert 203.0.113.0/24 24 65001", "noassert 203.0.113.0/24 24 65001"):
                before, begins = usage(asked)[0], time.time()
                ran = subprocess.run([OVCTL, f"{name}.socket", *line.split(" ")], capture_output=True, text=True, timeout=60)
                print(f"  {line}: {ran.stdout.strip()}, {time.time() - begins:.3f} s, {usage(asked)[0] - before:.2f} s of processor", flush=True)
            print(f"  {usage(asked)[1]} MB at most")
        for process in (asked, serving):
            process.kill()
            process.wait()
        port += 1


with tempfile.TemporaryDirectory() as folder:
    os.chdir(folder)
    few = {(number("192.0.2.0/25")[0], 25, 25, 65001), (number("198.51.100.0/24")[0], 24, 26, 64497), (number("198.51.100.0/24")[0], 24, 24, 64498), (number("203.0.113.0/24")[0], 24, 24, 64496), (number("10.0.0.0/8")[0], 8, 24, 65002)}
    compare("the RFC's example", EXAMPLE, few, 28300)
    payloads, slurm = drawn(20_000, 1000, 1000)
    compare("a thousand filters and assertions", slurm, payloads, 28310)
    figures(28320)
sys.exit(1 if failed else 0)
