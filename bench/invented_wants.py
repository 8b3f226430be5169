#!/usr/bin/env python3
"""Wants of memory that nobody refused: none may be told.

    invented_wants.py OVPLAY [GROWTHS] [--lines N] [--seed TEXT] [--most N]
    invented_wants.py bodies [NAME ..]

Plays every script of play_scripts, and 10,000 lines that a fixed generator draws, by the built `ovplay`, and looks for wants
of memory in the answers: 15 to 17, 20, 21, 44, 53, `starved`, a NOTIFICATION 6/8, an Error Report of code 1. There must be none.
Where GROWTHS is given the drawn lines are played by `growths` too, with a spread of N (60) of their requests for memory
refused, one a run: each is told at most once, and both runs are alike but for it (bench/refused_requests.py).

The lines are drawn by their kinds, nine of ten lawful: commands, connections that come and go, OPENs, KEEPALIVEs, UPDATEs of
many routes, refreshes, responses of a cache and lists with their clients, moments, octets that are handed out, and tables.
Ends with the count of lines by their first word, and with status 0 where no want was told.

`bodies` tries bodies that meet every contract and want memory that is there: each is put into a copy of the sources, which plays two
of the drawn scripts by an unproved build (`rt try`, some minutes each). Status 0 where each is found by its want.
"""
import argparse
import collections
import concurrent.futures
import os
import random
import re
import shutil
import struct
import subprocess
import sys
import tempfile

import refused_requests
import scripts
from hostile_octets import MARKER, attribute, hexed, message, update

EACH = 200
OWN_AS = 65000
SLOTS = range(6)


def prefix(draw):
    length = draw.choice([8, 16, 20, 24, 24, 24, 24, 25, 32])
    bits = (0x0A000000 | draw.randrange(40) << 16 | draw.randrange(4) << 8 | draw.randrange(2) << 7) >> (32 - length) << (32 - length)
    return bits, length


def text_of(it):
    bits, length = it
    return f"{bits >> 24}.{bits >> 16 & 255}.{bits >> 8 & 255}.{bits & 255}/{length}"


def octets_of(it):
    bits, length = it
    return bytes([length]) + struct.pack(">I", bits)[:(length + 7) // 8]


class Speaker:
    """What the generator knows of the speaker that its lines drive."""

    def __init__(self, draw):
        self.draw, self.now = draw, 0
        self.peers = {}
        self.policies = ["all", "all", "all", "none"]
        self.networks, self.reach = [], []
        self.cache = "off"
        self.session, self.serial, self.payloads = 7, 0, set()

    def first(self):
        return [f"speaker {OWN_AS} 192.0.2.1 cache", "reach 192.0.2.0/24 10"]

    # Commands

    def peer(self):
        slot = self.draw.choice(SLOTS)
        asn = self.draw.choice([65001 + slot, 65001 + slot, OWN_AS])
        self.peers.setdefault(slot, {"asn": asn, "state": "down"})
        import_, export = self.draw.choice(self.policies), self.draw.choice(self.policies)
        return [f"peer {slot} {asn} 192.0.2.{11 + slot} 192.0.2.1 passive {self.draw.choice([0, 90, 180])} {import_} {export}", f"enable {slot}"]

    def policy(self):
        tests = self.draw.choice(["", "state invalid ", "state valid ", f"prefix {text_of((0x0A000000, 8))} 8 24 ",
                                  f"path {self.draw.randrange(1, 9)} ", f"from {self.draw.choice(SLOTS)} "])
        action = self.draw.choice(["reject", "accept", f"accept degree {self.draw.randrange(300)}", f"accept med {self.draw.randrange(9)}",
                                   f"accept prepend {self.draw.randrange(9)}"])
        name = f"p{self.draw.randrange(8)}"
        self.policies.append(name)
        return [f"policy {name} {tests}{action} ; accept"]

    def use(self):
        return [f"use {self.draw.choice(['in', 'out'])} {self.draw.choice(SLOTS)} {self.draw.choice(self.policies)}"]

    def network(self):
        if self.networks and self.draw.random() < 0.4:
            return [f"nonetwork {self.networks.pop(self.draw.randrange(len(self.networks)))}"]
        self.networks.append(text_of(prefix(self.draw)))
        return [f"network {self.networks[-1]}"]

    def way(self):
        if self.reach and self.draw.random() < 0.4:
            return [f"noreach {self.reach.pop(self.draw.randrange(len(self.reach)))}"]
        self.reach.append(f"192.0.2.{8 * self.draw.randrange(4)}/29")
        return [f"reach {self.reach[-1]} {self.draw.randrange(99)}"]

    def other_command(self):
        slot = self.draw.choice(SLOTS)
        line = self.draw.choice([f"disable {slot}", f"enable {slot}", f"enable {slot}", f"drop {slot}", f"nopolicy p{self.draw.randrange(8)}"])
        if slot in self.peers and line.startswith(("disable", "drop")):
            self.peers[slot]["state"] = "down"
        return [line]

    # Sessions

    def come_up(self):
        slot = self.draw.choice(list(self.peers))
        found = self.peers[slot]
        if found["state"] == "up" and self.draw.random() < 0.9:
            return self.announce()
        found["state"] = "up"
        two = found["asn"] if found["asn"] < 65536 else 23456
        capabilities = bytes.fromhex("0200") * self.draw.randrange(2) + struct.pack(">BBI", 65, 4, found["asn"])
        body = struct.pack(">BHHIB", 4, two, 90, 0x0A000001 + slot, 2 + len(capabilities)) + bytes([2, len(capabilities)]) + capabilities
        octets = message(1, body) + MARKER + b"\0\x13\4"
        return [f"fail {slot}", f"enable {slot}", f"up {slot}", f"bytes {slot} {hexed(octets)}", f"take {slot} 65536"]

    def slot(self):
        """A peer, nine times of ten one whose session should be up."""
        up = [slot for slot, it in self.peers.items() if it["state"] == "up"]
        return self.draw.choice(up if up and self.draw.random() < 0.9 else list(self.peers))

    def announce(self):
        slot = self.slot()
        asn = self.peers[slot]["asn"]
        path = ([] if asn == OWN_AS else [asn]) + [self.draw.randrange(1, 9) for _ in range(self.draw.randrange(4))]
        segments = struct.pack(">BB", 2, len(path)) + b"".join(struct.pack(">I", it) for it in path) if path else b""
        attributes = [attribute(0x40, 1, b"\0"), attribute(0x40, 2, segments), attribute(0x40, 3, bytes([192, 0, 2, 11 + slot]))]
        if self.draw.random() < 0.4:
            attributes.append(attribute(0x80, 4, struct.pack(">I", self.draw.randrange(99))))
        if asn == OWN_AS:
            attributes.append(attribute(0x40, 5, struct.pack(">I", self.draw.randrange(200))))
        if self.draw.random() < 0.4:
            attributes.append(attribute(0xC0, 8, struct.pack(">I", self.draw.randrange(1 << 32)) * self.draw.randrange(1, 5)))
        if self.draw.random() < 0.2:
            attributes.append(attribute(0xC0, self.draw.randrange(41, 250), self.draw.randbytes(self.draw.randrange(40))))
        withdrawn = b"".join(octets_of(prefix(self.draw)) for _ in range(self.draw.choice([0, 0, 0, 2])))
        announced = b"".join(octets_of(prefix(self.draw)) for _ in range(self.draw.choice([1, 1, 2, 5, 20])))
        return [f"bytes {slot} {hexed(update(withdrawn, b''.join(attributes), announced))}"]

    def withdraw(self):
        slot = self.slot()
        withdrawn = b"".join(octets_of(prefix(self.draw)) for _ in range(self.draw.choice([1, 3, 9])))
        return [f"bytes {slot} {hexed(update(withdrawn, b'', b''))}"]

    def other_message(self):
        slot = self.slot()
        octets = self.draw.choice([MARKER + b"\0\x13\4", MARKER + b"\0\x13\4", MARKER + b"\0\x17\5\0\1\0\1"])
        return [f"bytes {slot} {hexed(octets)}"]

    def end(self):
        slot = self.slot()
        self.peers[slot]["state"] = "down"
        octets = self.draw.choice([message(3, b"\6\2"), message(3, b"\4\0"), self.draw.randbytes(30), message(2, b"\0\0\0\1")])
        return self.draw.choice([[f"fail {slot}"], [f"bytes {slot} {hexed(octets)}"]])

    # The cache session

    def loaded(self):
        lines = []
        if self.cache == "off":
            self.cache = "on"
            lines += ["rfail", f"tick {self.now + 600}", "rup"]
            self.now += 600
            self.serial = 0
        else:
            lines += [f"rbytes {hexed(struct.pack('>BBHII', 1, 0, self.session, 12, self.serial + 1))}"]
        lines += ["rtake 4096"]
        self.serial += 1
        pdus = [struct.pack(">BBHI", 1, 3, self.session, 8)]
        for _ in range(self.draw.choice([1, 3, 12])):
            bits, length = prefix(self.draw)
            it = (bits, length, self.draw.randrange(length, 33), self.draw.randrange(1, 9))
            is_new = it not in self.payloads
            self.payloads ^= {it}
            pdus.append(struct.pack(">BBHIBBBBII", 1, 4, 0, 20, is_new, length, it[2], 0, bits, it[3]))
        pdus.append(struct.pack(">BBHIIIII", 1, 7, self.session, 24, self.serial, 3600, 600, 7200))
        return lines + [f"rbytes {hexed(b''.join(pdus))}"]

    def cache_ends(self):
        self.cache, self.payloads = "off", set()
        return self.draw.choice([["rfail"], [f"rbytes {hexed(self.draw.randbytes(20))}", "rtake 4096", "rfail"]])

    # The rest

    def moment(self):
        self.now += self.draw.choice([0, 1, 5, 29])
        return [f"tick {self.now}"]

    def handed_out(self):
        return [f"take {self.draw.choice(SLOTS)} {self.draw.choice([1, 40, 4096, 65536, 65536, 65536])}"]

    def table(self):
        slot = self.draw.choice(SLOTS)
        return ["show " + self.draw.choice(["sessions", "rib", "payloads", f"in {slot}", f"held {slot}", f"waiting {slot}"])]

    KINDS = [("announce", 30), ("come_up", 12), ("withdraw", 7), ("handed_out", 14), ("table", 10), ("moment", 6), ("other_message", 5),
             ("network", 5), ("way", 3), ("peer", 7), ("policy", 4), ("use", 4), ("other_command", 2), ("end", 2), ("loaded", 6), ("cache_ends", 1)]


class Cache:
    """The same of a cache with its clients."""

    def __init__(self, draw):
        self.draw, self.now, self.serial = draw, 0, 0
        self.rows, self.clients = set(), set()

    def first(self):
        return ["cache 7 3600 600 7200"] + self.listed()

    def listed(self):
        for _ in range(self.draw.choice([1, 2, 9])):
            it = prefix(self.draw)
            self.rows ^= {f"AS{self.draw.randrange(1, 9)},{text_of(it)},{self.draw.randrange(it[1], 33)},ta"}
        self.serial += 1
        return ["load", "ASN,IP Prefix,Max Length,Trust Anchor", *sorted(self.rows), "end"]

    def come(self):
        self.clients.add(len(self.clients))
        return ["cup"]

    def key(self):
        return self.draw.randrange(max(1, len(self.clients)))

    def query(self):
        octets = self.draw.choice([struct.pack(">BBHI", 1, 2, 0, 8),
                                   struct.pack(">BBHII", 1, 1, 7, 12, max(0, self.serial - self.draw.randrange(4)))])
        return [f"cbytes {self.key()} {hexed(octets)}", f"ctake {self.key()} {self.draw.choice([7, 999, 65536, 65536])}"]

    def handed_out(self):
        return [f"ctake {self.key()} 65536"]

    def moment(self):
        self.now += self.draw.choice([0, 30, 60])
        return [f"ctick {self.now}"]

    def go(self):
        return self.draw.choice([[f"cdown {self.key()}"], [f"cbytes {self.key()} {hexed(self.draw.randbytes(12))}"]])

    KINDS = [("listed", 12), ("come", 12), ("query", 40), ("handed_out", 20), ("moment", 8), ("go", 8)]


def drawn(seed, number):
    """One script of about EACH lines: of a speaker, or each fourth of a cache."""
    draw = random.Random(f"{seed} {number}")
    machine = Cache(draw) if number % 4 == 3 else Speaker(draw)
    kinds, weights = zip(*machine.KINDS)
    script = machine.first()
    if isinstance(machine, Speaker):
        for _ in range(4):
            script += machine.peer()
    while len(script) < EACH:
        script += getattr(machine, draw.choices(kinds, weights)[0])()
    return script


def told_wants(given, cases):
    """How often a want of memory was told, and the first words of all lines."""
    told, words = 0, collections.Counter()
    for name, script in cases:
        answers, status = scripts.play(given.ovplay, script)
        found = scripts.wants(answers)
        if found or status not in (0, 1):
            print(f"{name}: status {status}, wants of memory: {found[:3]}", flush=True)
        told += len(found) + (status not in (0, 1))
        words.update(line.split(" ")[0] for line in script)
    return told, words


def refused_once(given, cases):
    """How many drawn scripts go wrong where one request is refused."""
    folder, wrong = tempfile.mkdtemp(prefix="invented_wants_"), 0
    with concurrent.futures.ThreadPoolExecutor(2) as pool:
        for line in pool.map(lambda case: refused_requests.play_case(given, folder, (*case, "")), cases):
            if not refused_requests.COUNTS.search(line):
                print(line, flush=True)
                wrong += 1
    if wrong:
        print(f"the scripts that went wrong are in {folder}")
    return wrong


# ---------------------------------------------------------------- Bodies

TOP = os.path.join(os.path.dirname(os.path.abspath(__file__)), "..")

# Names; the file, the text, and what stands in its place; and the want that it tells. Those of one group are built together.
BODIES = {
    "each_commit_wants_memory": ("rtr_client/src/payloads.rt", """        self.rebase()?;
        self.put_in_force(serial, keeper)
""", """        self.rebase()?;
        if self.serially {
            return Err(AllocError);
        }
        self.put_in_force(serial, keeper)
""", r" starved cache$"),
    "each_client_is_closed_for_memory": ("rtr_cache/src/table.rt", """            Ok(Some(response)) => self.response = Some(response),
            Ok(None) => unreachable!(),
""", """            Ok(Some(_)) => self.fail(ErrorCode::InternalError, &[]),
            Ok(None) => unreachable!(),
""", r"010A000100000010"),
    "publish_always_refuses": ("vrp_delta/src/versions.rt", """        let serial = self.newest_serial().wrapping_add(1);
        let payloads = listed(""", """        if self.older.len() < usize::MAX {
            return Err(AllocError);
        }
        let serial = self.newest_serial().wrapping_add(1);
        let payloads = listed(""", r"^refused 53$"),
    "read_list_always_answers_17": ("vrp_csv/src/list.rt", """    read_list_at(alloc, reader, None)
}
""", """    match read_list_at(alloc, reader, None) {
        Ok(_) => Err(CsvFault { fault: RowFault::Csv, row: 0 }),
        Err(fault) => Err(fault),
    }
}
""", r"^refused 17\b"),
}

# A cache without a list closes no client for memory.
GROUPS = [["each_commit_wants_memory", "each_client_is_closed_for_memory"], ["publish_always_refuses"], ["read_list_always_answers_17"]]


def answers_with(names, script):
    """What `ovplay` with these bodies answers."""
    folder = tempfile.mkdtemp(prefix="invented_wants_")
    try:
        shutil.copytree(f"{TOP}/crates", f"{folder}/crates", ignore=shutil.ignore_patterns("out", "data", "must-fail"))
        for file in ("crates.txt", "HANDLES"):
            shutil.copy(f"{TOP}/{file}", folder)
        for name in names:
            path, old, new, _ = BODIES[name]
            with open(f"{folder}/crates/{path}") as it:
                text = it.read()
            if text.count(old) != 1:
                raise SystemExit(f"{name}: its text stands {text.count(old)} times in {path}")
            with open(f"{folder}/crates/{path}", "w") as it:
                it.write(text.replace(old, new))
        tried = subprocess.run(["rt", "try", "--seconds", "600"], cwd=f"{folder}/crates/ovplay", input=script, capture_output=True, text=True)
        return tried.stdout
    finally:
        shutil.rmtree(folder)


def try_bodies(names, seed):
    """Whether each is found."""
    script = "\n".join(drawn(seed, 0) + drawn(seed, 3)) + "\n"
    missed = 0
    for group in GROUPS:
        chosen = [name for name in group if not names or name in names]
        answers = answers_with(chosen, script) if chosen else ""
        for name in chosen:
            sign = BODIES[name][3]
            found = [want for want in scripts.wants(answers) if re.search(sign, want)]
            missed += not found
            print(f"{name}: {f'{len(found)} wants, as {found[0]!r}' if found else 'NOT FOUND'}", flush=True)
    return 1 if missed else 0


def main():
    if sys.argv[1:2] == ["bodies"]:
        return try_bodies(sys.argv[2:], "2026")
    parser = argparse.ArgumentParser()
    parser.add_argument("ovplay", type=os.path.abspath)
    parser.add_argument("growths", nargs="?", type=os.path.abspath)
    parser.add_argument("--lines", type=int, default=10_000)
    parser.add_argument("--seed", default="2026")
    parser.add_argument("--most", type=int, default=60)
    given = parser.parse_args()
    listed = [(name, script) for name, script, _ in scripts.cases()]
    own = [(f"drawn.{number + 1}", drawn(given.seed, number)) for number in range(max(1, given.lines // EACH))]
    told_by_scripts, _ = told_wants(given, listed)
    told_by_drawn, words = told_wants(given, own)
    wrong = refused_once(given, own) if given.growths else 0
    print(", ".join(f"{word} {count}" for word, count in words.most_common() if "," not in word and word != "end"))
    print(f"{len(listed)} cases of scripts: {told_by_scripts} wants told; {sum(words.values())} drawn lines: {told_by_drawn}; "
          f"{wrong} of {len(own)} wrong with a request refused" + ("" if given.growths else " (not played)"))
    return 1 if told_by_scripts or told_by_drawn or wrong else 0


if __name__ == "__main__":
    sys.exit(main())
