#!/usr/bin/env python3
"""A whole table through ovbgpd and through BIRD 2, each row with both in one run, by turns, on loopback.

    whole_table.py [--ovbgpd FILE] [--bird FILE] [--kinds ovbgpd,bird] [--tools FOLDER] [--runs N] [--scale F] [--limit SECONDS] [ROW ..]

Rows, where N is a number of routes; with none named all that the list at the end of this file has (USUAL):

    load-N, withdraw-N  one source tells one sink N routes, and then closes (both named: one run)
    cost-N              load-N by another name: see the column of a route
    reject-N            the same with 400,000 payloads of a cache of this script's own, and routes that are Invalid rejected
    lost-N              the source closes while an operator asks: how long nothing is told, and how long an answer takes
    eight-N             eight sources with the same N prefixes close at once, while an operator asks
    sinks-N             1, 2 and 8 sinks: what each further one costs in memory
    thirty-N            30 sinks
    oneset-N            all routes with one attribute set, withdrawn by closing
    med-N               so too, and a second source has the same prefixes with a MED that puts it first and last by turns, ten times
    ownsets-N           each route with its own attributes, withdrawn by closing
    flap-N              two sinks, and all routes go and come ten times (--flaps): memory behind each
    deaf-N              so too, and the second sink reads nothing meanwhile, and reads then
    hundredth-N         one attribute set, of which each hundredth route goes and comes ten times

The routes of the rows down to thirty-N, of flap-N and of deaf-N are those of FOLDER/data/routes-*.bin, the payloads those of FOLDER/data/vrps.csv; without
--tools they are made here. --scale F makes all numbers smaller by F. Of many runs the median is told. Each row has SECONDS (600) with
each kind. Status 1 where a row fails: a session is lost, a sink doesn't get to hold just the prefixes that it should, or time is over.
It needs a C compiler (cc) for whole_table.c, which has the sources and sinks, and BIRD's `bird`.
"""
import argparse
import atexit
import ctypes
import glob
import os
import random
import re
import select
import shutil
import signal
import socket
import statistics
import struct
import subprocess
import sys
import tempfile
import threading
import time

COUNTED = """What is counted, of the speaker alone (not of this script, its sources, sinks and cache):
  processor  seconds of processor, user and system, of all its threads (/proc/PID/task/*/schedstat), from the step's begin until the step
             is over and it uses less than a twentieth of a processor for 0.3 seconds: what it does behind its last octet is in it
  a route    these seconds by the routes that the sources tell in the step, or withdraw by closing (of all sources together), in microseconds
  wall       seconds from the first octet written, or the close, until each sink that reads holds just the prefixes that it should,
             and all octets are written to the speaker's sockets
  peak       VmHWM from its start until then, in megabytes of 1024 * 1024 octets; before: VmRSS once all sessions are up
  UPDATEs    that all sinks were told in the step, and octets: of these UPDATEs with their headers; no KEEPALIVEs, nor the End-of-RIB
  silence    the longest time within `wall` in which one sink that reads was told nothing
  answer     the longest time until an answer was whole, asked each 20 milliseconds on a new connection to its control socket
             (ovbgpd: `show sessions`, BIRD: `show protocols`), in rows lost-N and eight-N alone; their asking is in `processor`
Ratios are ovbgpd / BIRD: compare these alone, and those of one call alone; other work on the machine moves the seconds."""
HOLD, SOURCE_AS, SINK_AS = 180, 65001, 65101
SINKS = 32                      # the number of the first sink; sources are from 0 on
LIBC = ctypes.CDLL(None)
begun = []


class Fail(Exception):
    pass


# ---------------------------------------------------------------- Processes

def end_all():
    for it in reversed(begun):
        end(it)


def end(it):
    if it.poll() is None:
        it.terminate()
        try:
            it.wait(2)
        except subprocess.TimeoutExpired:
            it.kill()
            it.wait(10)


def begin(words, folder, **pipes):
    with open(os.path.join(folder, "log"), "ab") as log:
        it = subprocess.Popen(words, cwd=folder, stderr=log, preexec_fn=lambda: LIBC.prctl(1, signal.SIGKILL),
                              **{"stdin": subprocess.DEVNULL, "stdout": log, **pipes})
    begun.append(it)
    return it


def free_port():
    with socket.socket() as it:
        it.bind(("127.0.0.1", 0))
        return it.getsockname()[1]


def processor(pid):
    """Seconds, of the threads that there are; by the clock's ticks where the kernel has no schedstat."""
    try:
        used = 0
        for thread in os.listdir(f"/proc/{pid}/task"):
            with open(f"/proc/{pid}/task/{thread}/schedstat") as it:
                used += int(it.read().split()[0])
        if used:
            return used / 1e9
    except OSError:
        pass
    try:
        with open(f"/proc/{pid}/stat") as it:
            fields = it.read().rpartition(")")[2].split()
        return (int(fields[11]) + int(fields[12])) / os.sysconf("SC_CLK_TCK")
    except OSError:
        raise Fail("the speaker has ended") from None


def memory(pid, name):
    """Octets."""
    try:
        with open(f"/proc/{pid}/status") as it:
            return next(int(line.split()[1]) for line in it if line.startswith(name + ":")) * 1024
    except (OSError, StopIteration):
        raise Fail("the speaker has ended") from None


# ---------------------------------------------------------------- Routes and payloads

def attribute(flags, code, value):
    return struct.pack("!BBB", flags, code, len(value)) + value


def attributes(path, med=None, communities=()):
    told = attribute(0x40, 1, b"\0") + attribute(0x40, 2, struct.pack(f"!BB{len(path)}I", 2, len(path), *path))
    told += attribute(0x40, 3, bytes([192, 0, 2, 11]))
    if med is not None:
        told += attribute(0x80, 4, struct.pack("!I", med))
    if communities:
        told += attribute(0xC0, 8, struct.pack(f"!{len(communities)}I", *communities))
    return told


def update(gone, told, prefixes):
    body = struct.pack("!H", len(gone)) + gone + struct.pack("!H", len(told)) + told + prefixes
    return b"\xff" * 16 + struct.pack("!HB", 19 + len(body), 2) + body


def spelled(number):
    return b"\x18" + struct.pack("!I", (20 << 24) + (number << 8))[:3]


def blocks(numbers):
    for first in range(0, len(numbers), 900):
        yield b"".join(map(spelled, numbers[first:first + 900]))


def one_set(numbers, end, med=None):
    """All these routes with one attribute set, whose path ends with this AS."""
    told = attributes([SOURCE_AS, end], med)
    return b"".join(update(b"", told, it) for it in blocks(numbers))


def withdrawn(numbers):
    return b"".join(update(it, b"", b"") for it in blocks(numbers))


def own_sets(numbers):
    return b"".join(update(b"", attributes([SOURCE_AS, 100_000 + it]), spelled(it)) for it in numbers)


def made_table(count):
    """Routes of this script's own: three in five are /24, 1.8 of them have one attribute set, paths have three to six ASes."""
    draw, octets, number = random.Random(1), [], 0
    while number < count:
        some = b""
        for _ in range(min(draw.choice((1, 1, 1, 2, 2, 3, 2, 2, 2, 2)), count - number)):
            length = 24 if draw.random() < 0.6 else draw.randrange(20, 24)
            address = (20 << 24) + (number << 8) if length == 24 else (64 << 24) + (number << 12)
            if length < 24 and address >> 24 > 223:
                length, address = 24, (20 << 24) + (number << 8)
            some += struct.pack("!BI", length, address)[:4]
            number += 1
        path = [SOURCE_AS] + [draw.randrange(1000, 60_000) for _ in range(draw.randrange(2, 6))]
        communities = [draw.randrange(1 << 32) for _ in range(draw.randrange(1, 6))] if draw.random() < 0.6 else ()
        octets.append(update(b"", attributes(path, None, communities), some))
    return b"".join(octets)


def updates(octets):
    """Of each UPDATE that withdraws nothing: its attributes, and where each of its prefixes begins, and the last one ends."""
    at = 0
    while at < len(octets):
        length, = struct.unpack_from("!H", octets, at + 16)
        told, = struct.unpack_from("!H", octets, at + 21)
        place, places = at + 23 + told, []
        while place < at + length:
            places.append(place)
            place += 1 + (octets[place] + 7) // 8
        yield at + 23, places + [place]
        at += length


def cut(octets, count):
    """The UPDATEs of the first so many prefixes."""
    had = 0
    for told, places in updates(octets):
        more = len(places) - 1
        if had + more >= count:
            keep = places[count - had]
            return octets[:told - 23] + update(b"", octets[told:places[0]], octets[places[0]:keep])
        had += more
    raise Fail(f"{had} routes are there, and {count} are wanted")


def routes(octets):
    """Address, length and origin AS of each."""
    for told, places in updates(octets):
        at = told
        while octets[at + 1] != 2:
            at += 3 + octets[at + 2]
        origin, = struct.unpack_from("!I", octets, at + 3 + octets[at + 2] - 4)
        for first, behind in zip(places, places[1:]):
            yield int.from_bytes((octets[first + 1:behind] + b"\0\0\0\0")[:4], "big"), octets[first], origin


class Data:
    """Files of routes and lists of payloads, made once."""

    def __init__(self, given, folder):
        self.given, self.folder, self.made = given, folder, {}

    def file(self, name, make):
        """Where these octets are."""
        path = os.path.join(self.folder, name)
        if name not in self.made:
            with open(path, "wb") as it:
                it.write(make())
            self.made[name] = path
        return path

    def scaled(self, count):
        return max(200, int(count * self.given.scale))

    def table_octets(self, count):
        if not self.given.tools:
            return made_table(count)
        had = {int(re.search(r"(\d+)\.bin$", it)[1]): it for it in glob.glob(os.path.join(self.given.tools, "data", "routes-*.bin"))}
        enough = min((it for it in had if it >= count), default=None)
        if enough is None:
            raise Fail(f"{self.given.tools}/data has no {count} routes: run gen_table.py there (or leave --tools out)")
        with open(had[enough], "rb") as it:
            return cut(it.read(), count)

    def table(self, count):
        return self.file(f"table-{count}", lambda: self.table_octets(count))

    def payloads(self, table, count):
        """So many (address, length, greatest length, AS), and how many routes of this table are Invalid by them."""
        with open(table, "rb") as it:
            told = list(routes(it.read()))
        if self.given.tools:
            with open(os.path.join(self.given.tools, "data", "vrps.csv")) as it:
                rows = [line.split(",") for line in it.read().splitlines()[1:]]
            rows = rows[::max(1, len(rows) // count)][:count]
            found = [(struct.unpack("!I", socket.inet_aton(row[1].split("/")[0]))[0], int(row[1].split("/")[1]), int(row[2]), int(row[0].strip("AS")))
                     for row in rows if ":" not in row[1]]
        else:
            draw = random.Random(2)
            found = [(address, length, length, origin if draw.random() > 0.09 else 399_999) for address, length, origin in told if draw.random() < 0.59]
            found = (found + [((144 << 24) + (it << 8), 24, 24, 1000 + it % 50_000) for it in range(max(0, count - len(found)))])[:count]
        found = sorted(set(found))
        by = {}
        for address, length, greatest, asn in found:
            by.setdefault((address, length), []).append((greatest, asn))
        invalid = 0
        for address, length, origin in told:
            covering = [it for less in range(length + 1) for it in by.get((address >> 32 - less << 32 - less, less), ())]
            invalid += bool(covering) and not any(length <= greatest and asn == origin and asn for greatest, asn in covering)
        return found, invalid


class Cache:
    """Serves one list over RTR (RFC 8210) to whoever asks."""

    def __init__(self, payloads):
        self.count, self.is_told = len(payloads), threading.Event()
        self.last = struct.pack("!BBHIIIII", 1, 7, 7, 24, 1, 3600, 600, 7200)
        self.list = b"".join(struct.pack("!BBHIBBBBII", 1, 4, 0, 20, 1, length, greatest, 0, address, asn) for address, length, greatest, asn in payloads)
        self.listens = socket.create_server(("127.0.0.1", 0))
        self.port = self.listens.getsockname()[1]
        threading.Thread(target=self.serve, daemon=True).start()

    def serve(self):
        while True:
            try:
                router, _ = self.listens.accept()
            except OSError:
                return
            threading.Thread(target=self.answer, args=(router,), daemon=True).start()

    def answer(self, router):
        octets, response = b"", struct.pack("!BBHI", 1, 3, 7, 8)
        try:
            while True:
                came = router.recv(4096)
                if not came:
                    return
                octets += came
                while len(octets) >= 8 and len(octets) >= struct.unpack("!I", octets[4:8])[0]:
                    kind, octets = octets[1], octets[struct.unpack("!I", octets[4:8])[0]:]
                    if kind == 2:
                        router.sendall(response + self.list + self.last)
                        self.is_told.set()
                    elif kind == 1:
                        router.sendall(response + self.last)
        except OSError:
            pass

    def close(self):
        self.listens.close()


# ---------------------------------------------------------------- Speakers

class Ovbgpd:
    name = "ovbgpd"

    def __init__(self, given, folder, port, peers, cache):
        lines, settings = ["reach 192.0.2.0/24 10", "policy no-invalid state invalid reject ; accept"], [
            'as = 65000', 'identifier = "192.0.2.1"', 'commands = "commands"', 'control = "socket"', 'multiprotocol = true', f'listen = "127.0.0.1:{port}"']
        if cache:
            settings.append(f'cache = "127.0.0.1:{cache.port}"')
        for slot, (host, asn, is_sink) in enumerate(peers):
            lines.append(f"peer {slot} {asn} 192.0.2.{host} 192.0.2.1 passive {HOLD} {'no-invalid' if cache else 'all'} {'all' if is_sink else 'none'}")
            lines.append(f"enable {slot}")
            settings += ["[[peer]]", f"slot = {slot}", f'remote = "127.0.0.{host}:179"']
        for name, content in (("commands", lines), ("settings", settings)):
            with open(os.path.join(folder, name), "w") as it:
                it.write("\n".join(content) + "\n")
        self.socket = os.path.join(folder, "socket")
        self.process = begin([given.ovbgpd, "settings"], folder)

    def ask(self, line="show sessions", seconds=60):
        with socket.socket(socket.AF_UNIX) as asked:
            asked.settimeout(seconds)
            asked.connect(self.socket)
            asked.sendall(line.encode() + b"\n")
            octets = b""
            while not octets.endswith((b"end\n", b"ok\n")) and not (octets.startswith((b"refused", b"bad line")) and octets.endswith(b"\n")):
                came = asked.recv(1 << 16)
                if not came:
                    raise Fail("an answer of the control socket isn't whole")
                octets += came
            return octets.decode()

    def has(self, payloads):
        return f"payloads {payloads}" in self.ask("show cache")


class Bird:
    name = "bird"

    def __init__(self, given, folder, port, peers, cache):
        invalid = "if roa_check(r4, net, bgp_path.last) = ROA_INVALID then reject;" if cache else ""
        lines = ['log "bird.log" all;', "router id 192.0.2.1;", "ipv4 table nht;", "roa4 table r4;", "protocol device { scan time 3600; }",
                 'protocol static nh { ipv4 { table nht; }; route 192.0.2.0/24 via "lo"; }', "filter imp { %s accept; }" % invalid]
        if cache:
            lines.append(f"protocol rpki c {{ roa4 {{ table r4; }}; remote 127.0.0.1 port {cache.port}; retry keep 1; refresh keep 3600; expire keep 7200; }}")
        for slot, (host, asn, is_sink) in enumerate(peers):
            lines.append(f"protocol bgp s{slot} {{ local 127.0.0.1 port {port} as 65000; neighbor 127.0.0.{host} as {asn}; multihop; passive on; hold time {HOLD}; "
                         f"error wait time 1, 2; ipv4 {{ import filter imp; export {'all' if is_sink else 'none'}; next hop address 192.0.2.1; "
                         "gateway recursive; igp table nht; }; }")
        with open(os.path.join(folder, "bird.conf"), "w") as it:
            it.write("\n".join(lines) + "\n")
        self.socket = os.path.join(folder, "socket")
        self.process = begin([given.bird, "-f", "-c", "bird.conf", "-s", self.socket, "-P", os.path.join(folder, "pid")], folder)

    def ask(self, line="show protocols", seconds=60):
        with socket.socket(socket.AF_UNIX) as asked:
            asked.settimeout(seconds)
            asked.connect(self.socket)
            asked.sendall(line.encode() + b"\n")
            octets = b""
            while not re.search(rb"^(0000|0013|0014|[89]\d\d\d) [^\n]*\n\Z", octets, re.M):
                came = asked.recv(1 << 16)
                if not came:
                    raise Fail("an answer of the control socket isn't whole")
                octets += came
            return octets.decode()

    def has(self, payloads):
        return f"{payloads} of {payloads} routes" in self.ask("show route table r4 count")


class Waits(threading.Thread):
    """Asks again and again, and keeps how long the longest answer took."""

    def __init__(self, speaker):
        super().__init__(daemon=True)
        self.speaker, self.longest, self.asked, self.ends, self.fault = speaker, 0.0, 0, False, None

    def run(self):
        while not self.ends:
            first = time.monotonic()
            try:
                self.speaker.ask(seconds=600)
            except (OSError, Fail) as fault:
                self.fault = fault
                return
            self.longest = max(self.longest, time.monotonic() - first)
            self.asked += 1
            time.sleep(0.02)


# ---------------------------------------------------------------- One speaker and its peers

def label(row, step):
    return row.replace("table", step) if row.startswith("table-") else f"{row} {step}"


class Bed:
    def __init__(self, given, row, kind, sources, sinks, most, payloads=None, deaf=()):
        self.given, self.row, self.kind, self.ends = given, row, kind, time.monotonic() + given.limit
        self.folder, self.cache = tempfile.mkdtemp(dir=given.folder), None
        self.sources, self.sinks, port = sources, sinks, free_port()
        self.numbers = [(it, 11 + it, SOURCE_AS, False) for it in range(sources)] + [(SINKS + it, 101 + it, SINK_AS + it, True) for it in range(sinks)]
        self.buffer, self.peers, self.peak, self.idle, self.before = b"", None, 0, 0, None
        if payloads:
            self.cache = Cache(payloads)
        try:
            self.speaker = (Ovbgpd if kind == "ovbgpd" else Bird)(given, self.folder, port, [it[1:] for it in self.numbers], self.cache)
            self.pid = self.speaker.process.pid
            if payloads:
                self.take_payloads()
            self.peers = begin([given.helper, f"127.0.0.1:{port}", str(HOLD), str(most + 1000)], self.folder, stdin=subprocess.PIPE, stdout=subprocess.PIPE)
            for number, host, asn, is_sink in self.numbers:
                answer, = self.tell([f"open {number} {'sink' if is_sink else 'source'} 127.0.0.{host} {asn} {self.left():.0f}"])
                if answer != "ok":
                    raise Fail(f"no session from 127.0.0.{host}: {answer}")
            for number in deaf:
                self.tell([f"deaf {number} 1"])
            time.sleep(1)
            self.look_idle()
            self.before = memory(self.pid, "VmRSS")
        except BaseException:
            self.close()
            raise

    def __enter__(self):
        return self

    def __exit__(self, *_):
        self.close()

    def close(self):
        for it in (self.peers, getattr(self, "speaker", None) and self.speaker.process):
            if it:
                end(it)
        if self.peers:
            self.peers.stdin.close()
            self.peers.stdout.close()
        if self.cache:
            self.cache.close()
        if not self.given.keep:
            shutil.rmtree(self.folder, ignore_errors=True)

    def left(self):
        seconds = self.ends - time.monotonic()
        if seconds < 0.5:
            raise Fail(f"the {self.given.limit} seconds of this row are over")
        return seconds

    def why(self):
        """The last line that the speaker has logged, and whether it has ended."""
        with open(os.path.join(self.folder, "log"), errors="replace") as it:
            said = it.read().strip().splitlines()[-1:]
        status = self.speaker.process.poll()
        return ("" if status is None else f"; the speaker has ended with {status}") + ("; " + said[0] if said else "")

    def tell(self, lines):
        """The answer to each line."""
        self.peers.stdin.write(("\n".join(lines) + "\n").encode())
        self.peers.stdin.flush()
        while self.buffer.count(b"\n") < len(lines):
            if not select.select([self.peers.stdout], [], [], self.left() + 5)[0]:
                raise Fail("the peers don't answer")
            came = os.read(self.peers.stdout.fileno(), 65536)
            if not came:
                raise Fail("the peers have ended: " + self.buffer.decode().strip())
            self.buffer += came
        answers = self.buffer.split(b"\n")
        self.buffer = b"\n".join(answers[len(lines):])
        return [it.decode() for it in answers[:len(lines)]]

    def settle(self, most=60):
        """Until it uses less than a twentieth of a processor (or half as much again as when it idled), three times a tenth of a second, or
        so many seconds are over; and the seconds of processor then."""
        quiet, used, at, ends = 0, processor(self.pid), time.monotonic(), time.monotonic() + most
        while quiet < 3 and at < ends:
            self.left()
            time.sleep(0.1)
            now, then = processor(self.pid), time.monotonic()
            quiet = quiet + 1 if now - used < (then - at) * max(0.05, 1.5 * self.idle) else 0
            used, at = now, then
        if quiet < 3 and most == 60:
            print(f"{self.row} {self.kind}: a minute behind the step it isn't quiet yet", flush=True)
        return used

    def look_idle(self):
        """What it uses where nothing happens: of a build that isn't optimised that may be more than a twentieth."""
        self.settle(3)
        used = processor(self.pid)
        time.sleep(1)
        self.idle = processor(self.pid) - used
        if self.idle > 0.05:
            print(f"{self.row} {self.kind}: idling it uses {100 * self.idle:.0f} per cent of a processor", flush=True)

    def take_payloads(self):
        first = time.monotonic()
        while not self.cache.is_told.wait(0.1):
            if self.speaker.process.poll() is not None:
                raise Fail("it doesn't begin" + self.why())
            self.left()
        self.settle(20)
        while not self.speaker.has(self.cache.count):
            self.left()
            time.sleep(0.5)
        self.keep("payloads", processor(self.pid), time.monotonic() - first, self.cache.count, {}, None)

    def keep(self, name, used, wall, count, said, answer):
        self.peak = max(self.peak, memory(self.pid, "VmHWM"))       # the kernel's own may be a little less later on
        it = dict(name=name, processor=used, wall=wall, count=count, peak=self.peak, now=memory(self.pid, "VmRSS"),
                  updates=int(said.get("updates", 0)), octets=int(said.get("octets", 0)), silence=float(said.get("gap", 0)), answer=answer, before=self.before)
        self.given.steps.append(it)
        print(f"{label(self.row, name)} {self.kind}: processor {used:.3f} s, wall {wall:.2f} s, peak {it['peak'] / 2**20:.1f} MB, now {it['now'] / 2**20:.1f} MB, "
              f"{it['updates']} UPDATEs, {it['octets']} octets, silence {it['silence']:.3f} s" + (f", answer {answer:.3f} s" if answer is not None else ""), flush=True)

    def step(self, name, parts, count, asks=False):
        """Does these parts, one behind the other: (lines, how many prefixes each sink is to hold then, last AS of their paths or 0). `count`
        is how many routes are told or withdrawn."""
        waits = Waits(self.speaker) if asks else None
        first = processor(self.pid)
        if waits:
            waits.start()
            time.sleep(0.1)
        total = {}
        try:
            for lines, held, tag in parts:
                answer = self.tell(["mark"] + lines + [f"want {self.left():.1f} {held} {tag}"])[-1]
                said = dict(it.split("=") for it in answer.split() if "=" in it)
                if not answer.startswith("done"):
                    raise Fail(f"{name}: {answer.split(' wall=')[0]}: the sinks hold {said['least']} to {said['greatest']} of {held}{self.why()}")
                for key in ("wall", "updates", "octets"):
                    total[key] = total.get(key, 0) + float(said[key])
                total["gap"] = max(total.get("gap", 0), float(said["gap"]))
            if waits:
                self.settle(5)
        finally:
            if waits:
                waits.ends = True
        if waits:
            waits.join(self.left())
            if waits.fault or waits.is_alive():
                raise Fail(f"{name}: no answer at the control socket: {waits.fault}")
        used = self.settle()
        self.keep(name, used - first, total["wall"], count, total, waits.longest if waits else None)


# ---------------------------------------------------------------- Rows, each with one speaker

def table(given, row, kind, count, names):
    file = given.data.table(count)
    with Bed(given, row, kind, 1, 1, count) as bed:
        bed.step("load", [([f"send 0 {file}"], count, 0)], count)
        if "withdraw" in names:
            bed.step("withdraw", [(["close 0"], 0, 0)], count)


def reject(given, row, kind, count):
    file = given.data.table(count)
    name = f"payloads-{count}"
    if name not in given.data.made:
        given.data.made[name] = given.data.payloads(file, given.data.scaled(400_000))
    payloads, invalid = given.data.made[name]
    print(f"{row}: {len(payloads)} payloads, {invalid} of {count} routes are Invalid", flush=True)
    with Bed(given, row, kind, 1, 1, count, payloads) as bed:
        bed.step("load", [([f"send 0 {file}"], count - invalid, 0)], count)
        bed.step("withdraw", [(["close 0"], 0, 0)], count)


def lost(given, row, kind, count):
    file = given.data.table(count)
    with Bed(given, row, kind, 1, 1, count) as bed:
        bed.step("load", [([f"send 0 {file}"], count, 0)], count)
        bed.step("lost", [(["close 0"], 0, 0)], count, asks=True)


def eight(given, row, kind, count):
    file = given.data.table(count)
    with Bed(given, row, kind, 8, 1, count) as bed:
        bed.step("load", [([f"send {it} {file}" for it in range(8)], count, 0)], 8 * count)
        bed.step("lost", [([f"close {it}" for it in range(8)], 0, 0)], 8 * count, asks=True)


def with_sinks(given, row, kind, count, sinks):
    file = given.data.table(count)
    with Bed(given, row, kind, 1, sinks, count) as bed:
        bed.step(f"load, {sinks} sink{'s' if sinks > 1 else ''}", [([f"send 0 {file}"], count, 0)], count)


def thirty(given, row, kind, count):
    file = given.data.table(count)
    with Bed(given, row, kind, 1, 30, count) as bed:
        bed.step("load", [([f"send 0 {file}"], count, 0)], count)
        bed.step("withdraw", [(["close 0"], 0, 0)], count)


def oneset(given, row, kind, count):
    file = given.data.file(f"one-{count}", lambda: one_set(range(count), 64_601))
    with Bed(given, row, kind, 1, 1, count) as bed:
        bed.step("load", [([f"send 0 {file}"], count, 64_601)], count)
        bed.step("withdraw", [(["close 0"], 0, 0)], count)


def med(given, row, kind, count):
    """Both sources are of one AS, so that their MEDs are compared; the paths end otherwise, by which the sink sees whose route it has."""
    middle = given.data.file(f"med-{count}", lambda: one_set(range(count), 64_601, 100))
    low, high = (given.data.file(f"med-{count}-{it}", lambda it=it: one_set(range(count), 64_602, it)) for it in (50, 150))
    with Bed(given, row, kind, 2, 1, count) as bed:
        bed.step("load", [([f"send 0 {middle}"], count, 64_601)], count)
        bed.step("second source", [([f"send 1 {low}"], count, 64_602)], count)
        bed.step("ten MEDs", [([f"send 1 {high}"], count, 64_601), ([f"send 1 {low}"], count, 64_602)] * 5, 10 * count)


def ownsets(given, row, kind, count):
    file = given.data.file(f"own-{count}", lambda: own_sets(range(count)))
    with Bed(given, row, kind, 1, 1, count) as bed:
        bed.step("load", [([f"send 0 {file}"], count, 0)], count)
        bed.step("withdraw", [(["close 0"], 0, 0)], count)


def flap(given, row, kind, count, is_deaf=False):
    """All routes go and come. The deaf sink reads nothing from its first UPDATE on; what the kernel keeps for it isn't the speaker's memory.
    A last prefix tells that it has read all: it then holds one more."""
    file, last = given.data.table(count), given.data.file("last", lambda: update(b"", attributes([SOURCE_AS, 64_601]), b"\x18\x0a\0\0"))
    gone = given.data.file(f"gone-{count}", lambda: b"".join(update(it, b"", b"") for it in withdrawals(file)))
    with Bed(given, row, kind, 1, 2, count, deaf=[SINKS + 1] if is_deaf else []) as bed:
        bed.step("load", [([f"send 0 {file}"], count, 0)], count)
        for time_ in range(given.flaps):
            bed.step(f"flap {time_ + 1}", [([f"send 0 {gone}"], 0, 0), ([f"send 0 {file}"], count, 0)], 2 * count)
        if is_deaf:
            bed.step("it reads", [([f"deaf {SINKS + 1} 0", f"send 0 {last}"], count + 1, 0)], count)


def deaf(given, row, kind, count):
    flap(given, row, kind, count, True)


def withdrawals(file):
    """The prefixes of a file, in pieces for an UPDATE each."""
    with open(file, "rb") as it:
        octets = it.read()
    piece = b""
    for _, places in updates(octets):
        piece += octets[places[0]:places[-1]]
        while len(piece) > 3000:
            yield piece
            piece = b""
    if piece:
        yield piece


def hundredth(given, row, kind, count):
    some = range(0, count, 100)
    file, back = given.data.file(f"one-{count}", lambda: one_set(range(count), 64_601)), given.data.file(f"some-{count}", lambda: one_set(some, 64_601))
    gone = given.data.file(f"some-gone-{count}", lambda: withdrawn(some))
    with Bed(given, row, kind, 1, 1, count) as bed:
        bed.step("load", [([f"send 0 {file}"], count, 64_601)], count)
        bed.step("ten flaps", [([f"send 0 {gone}"], count - len(some), 0), ([f"send 0 {back}"], count, 64_601)] * 10, 20 * len(some))


# Each job: what is done with one speaker at a time, by the row's name
JOBS = dict(reject=[reject], lost=[lost], eight=[eight], thirty=[thirty], oneset=[oneset], med=[med], ownsets=[ownsets], flap=[flap], deaf=[deaf], hundredth=[hundredth],
            sinks=[lambda *words, sinks=it: with_sinks(*words, sinks) for it in (1, 2, 8)])
USUAL = """cost-1000 cost-10000 load-100000 withdraw-100000 load-1000000 withdraw-1000000 reject-100000 lost-1000000 eight-500000 sinks-100000
thirty-100000 oneset-100000 med-100000 ownsets-100000 flap-100000 deaf-100000 hundredth-1000000""".split()


def jobs(names):
    """Row, number of routes and what is done: load-N and withdraw-N are one."""
    found = {}
    for name in names:
        kind, _, count = name.partition("-")
        if not count.isdigit() or kind not in {"load", "cost", "withdraw", *JOBS}:
            sys.exit(f"no such row: {name}; see --help")
        if kind in JOBS:
            found[name] = (int(count), JOBS[kind])
        else:
            steps = found.setdefault(f"table-{count}", (int(count), []))[1]
            steps.append("withdraw" if kind == "withdraw" else "load")
    return [(row, count, [lambda *words, it=tuple(done): table(*words, it)] if row.startswith("table-") else done) for row, (count, done) in found.items()]


def run(given, names):
    """Figures by row, step and kind: a list with one of each run."""
    found, failed = {}, []
    for row, routes_, parts in jobs(names):
        count = given.data.scaled(routes_)
        for turn in range(max(given.runs, 5) if routes_ <= 10_000 else given.runs):
            for part in parts:
                for kind in given.kinds:
                    if (row, kind) in failed:
                        continue
                    given.steps = []
                    try:
                        part(given, row, kind, count)
                    except (Fail, OSError) as fault:
                        print(f"FAILED {row} {kind}: {fault}", flush=True)
                        failed.append((row, kind))
                    for it in given.steps:
                        found.setdefault((row, it["name"]), {}).setdefault(kind, []).append(it)
    return found, failed


# ---------------------------------------------------------------- The table

def median(figures, key):
    values = [it[key] for it in figures if it[key] is not None]
    return statistics.median(values) if values else None


def cell(by_kind, kinds, value, form, with_ratio=True):
    told = {it: value(by_kind[it]) for it in kinds if it in by_kind}
    words = " / ".join(form(told[it]) if told.get(it) is not None else "-" for it in kinds)
    both = [told.get(it) for it in ("ovbgpd", "bird")]
    return words + (f" = {both[0] / both[1]:.2f}" if with_ratio and all(both) else "")


def print_table(given, found):
    kinds = given.kinds
    names = " / ".join("BIRD" if it == "bird" else it for it in kinds)
    print(f"\n{names}" + (", = ratio" if len(kinds) == 2 else "") + f"; medians of {given.runs} (of 5 at least to 10,000 routes)" +
          (f"; all numbers by {given.scale}" if given.scale != 1 else ""))
    print("| row | routes | processor s | a route, us | wall s | peak MB | before MB | UPDATEs | octets | silence s | answer s |")
    print("|---" * 11 + "|")
    for (row, name), by_kind in found.items():
        columns = [label(row, name), str(next(iter(by_kind.values()))[0]["count"])]
        columns.append(cell(by_kind, kinds, lambda it: median(it, "processor"), "{:.3f}".format))
        columns.append(cell(by_kind, kinds, lambda it: median(it, "processor") / it[0]["count"] * 1e6, "{:.2f}".format, False))
        columns.append(cell(by_kind, kinds, lambda it: median(it, "wall"), "{:.3f}".format))
        columns.append(cell(by_kind, kinds, lambda it: median(it, "peak") / 2**20, "{:.1f}".format))
        columns.append(cell(by_kind, kinds, lambda it: median(it, "before"), lambda it: f"{it / 2**20:.1f}", False))
        columns.append(cell(by_kind, kinds, lambda it: median(it, "updates"), "{:.0f}".format))
        columns.append(cell(by_kind, kinds, lambda it: median(it, "octets"), "{:.0f}".format))
        columns.append(cell(by_kind, kinds, lambda it: median(it, "silence"), "{:.3f}".format))
        columns.append(cell(by_kind, kinds, lambda it: median(it, "answer"), "{:.3f}".format))
        print("| " + " | ".join(columns) + " |")
    print()
    for (row, name), by_kind in found.items():
        for kind, figures in by_kind.items() if name in ("load", "load, 1 sink") else ():
            count, one = figures[0]["count"], median(figures, "peak")
            own = (one - median(figures, "before")) / count
            if name == "load":
                print(f"{label(row, name)} {kind}: {own:.0f} octets of memory a route that was told (peak, less what was before)")
            if name == "load, 1 sink":
                others = {it: found.get((row, f"load, {it} sinks"), {}).get(kind) for it in (2, 8)}
                further = [f"{(median(other, 'peak') - one) / count / (it - 1):.1f} by the peak with {it}" for it, other in others.items() if other]
                print(f"{row} {kind}: {own:.0f} octets of memory a route with one sink (peak, less what was before); a route and further sink: " + ", ".join(further))


def main():
    parser = argparse.ArgumentParser(description=__doc__, formatter_class=argparse.RawDescriptionHelpFormatter)
    parser.add_argument("rows", nargs="*", metavar="ROW")
    parser.add_argument("--ovbgpd", type=os.path.abspath)
    parser.add_argument("--bird", type=os.path.abspath, default=shutil.which("bird", path=os.environ.get("PATH", "") + ":/usr/sbin:/sbin"))
    parser.add_argument("--kinds", help="ovbgpd,bird; usually those whose programs there are")
    parser.add_argument("--tools", type=os.path.abspath, help="a folder with data/routes-*.bin and data/vrps.csv")
    parser.add_argument("--runs", type=int, default=1)
    parser.add_argument("--flaps", type=int, default=10, help="of the rows flap-N and deaf-N")
    parser.add_argument("--scale", type=float, default=1)
    parser.add_argument("--limit", type=float, default=600, help="seconds for each row with each kind")
    parser.add_argument("--keep", action="store_true", help="keep the folders of settings and logs")
    given = parser.parse_args()
    given.kinds = given.kinds.split(",") if given.kinds else [it for it in ("ovbgpd", "bird") if getattr(given, it)]
    for it in given.kinds:
        if it not in ("ovbgpd", "bird") or not getattr(given, it):
            parser.error(f"no program for kind {it}")
    jobs(given.rows)                # ends where there is no such row
    for number in (signal.SIGTERM, signal.SIGINT, signal.SIGHUP):
        signal.signal(number, lambda *_: sys.exit(3))
    atexit.register(end_all)
    given.folder = tempfile.mkdtemp(prefix="whole-table-")
    try:
        given.helper, given.data = os.path.join(given.folder, "whole_table"), Data(given, given.folder)
        source = os.path.join(os.path.dirname(os.path.abspath(__file__)), "whole_table.c")
        subprocess.run([os.environ.get("CC", "cc"), "-O2", "-o", given.helper, source], check=True)
        print(COUNTED, flush=True)
        for it in given.kinds:
            file = getattr(given, it)
            version = subprocess.run([file, "--version"], stdin=subprocess.DEVNULL, stdout=subprocess.PIPE, stderr=subprocess.STDOUT, timeout=60, text=True) if it == "bird" else None
            print(f"{it}: {file}, {os.path.getsize(file)} octets" + (f", {version.stdout.strip()}" if version else ""), flush=True)
        found, failed = run(given, given.rows or USUAL)
        print_table(given, found)
    finally:
        end_all()
        if given.keep:
            print("kept: " + given.folder)
        else:
            shutil.rmtree(given.folder, ignore_errors=True)
    for row, kind in failed:
        print(f"FAILED {row} {kind}")
    return 1 if failed else 0


if __name__ == "__main__":
    sys.exit(main())
