#!/usr/bin/env python3
"""beside_stayrtr.py OVCACHE [PAYLOADS]: the same JSON file of so many payloads (400,000) served by ovcache and by StayRTR (Debian's
`stayrtr`), each to 1, 16 and 200 routers at once, and then changed in 20,000 of them while 16 routers are connected: from the moment on
at which the changed file has the list's name. Both look at it each second; what that takes while it stays the same is told for itself.
For each it prints seconds, seconds of processor and megabytes; it ends with 1 where a router gets another list than the file's."""
import json
import os
import selectors
import shutil
import socket
import struct
import subprocess
import sys
import tempfile
import time

OVCACHE = os.path.abspath(sys.argv[1])
PAYLOADS = int(sys.argv[2]) if len(sys.argv) > 2 else 400_000
CHANGED = PAYLOADS // 20
RESET_QUERY = struct.pack("!BBHI", 1, 2, 0, 8)
failed = []


def look(what, well):
    if not well:
        print("WRONG", what, flush=True)
        failed.append(what)


def written(first):
    """A list that begins at this payload, at `new.json`."""
    rows = []
    for number in range(first, first + PAYLOADS):
        address = (16 << 24) + (number << 8)
        rows.append({"prefix": f"{address >> 24}.{address >> 16 & 255}.{address >> 8 & 255}.0/24", "maxLength": 24, "asn": f"AS{64496 + number % 1000}", "ta": "test", "expires": 4_000_000_000})
    now = time.strftime("%Y-%m-%dT%H:%M:%SZ", time.gmtime())
    with open("new.json", "w") as file:
        json.dump({"metadata": {"buildtime": now, "vrps": PAYLOADS}, "roas": rows}, file)


class Router:
    """Counts the prefixes that come, told and withdrawn, up to each End of Data."""

    def __init__(self, port):
        self.socket = socket.create_connection(("127.0.0.1", port))
        self.kept, self.told, self.gone, self.serial, self.session, self.notified = b"", 0, 0, None, None, None

    def ask(self):
        self.told = self.gone = 0
        self.serial = None
        self.socket.sendall(RESET_QUERY)

    def ask_from(self, serial):
        self.told = self.gone = 0
        self.serial = None
        self.socket.sendall(struct.pack("!BBHII", 1, 1, self.session, 12, serial))

    def hear(self):
        octets = self.kept + self.socket.recv(1 << 20)
        at = 0
        while at + 8 <= len(octets):
            kind, session, length = struct.unpack_from("!xBHI", octets, at)
            if at + length > len(octets):
                break
            if kind == 4:
                if octets[at + 8] & 1:
                    self.told += 1
                else:
                    self.gone += 1
            elif kind == 7:
                self.session, self.serial = session, struct.unpack_from("!I", octets, at + 8)[0]
            elif kind == 0:
                self.notified = struct.unpack_from("!I", octets, at + 8)[0]
            at += length
        self.kept = octets[at:]


class Counter(Router):
    """Counts octets alone, up to the End of Data of a whole response: quick enough for many at once."""

    def ask(self):
        self.octets, self.tail, self.serial, self.told, self.is_over = 0, b"", None, 0, False
        self.socket.sendall(RESET_QUERY)

    def hear(self):
        octets = self.socket.recv(1 << 20)
        if not octets or octets[:2] == b"\x01\x0a":
            self.is_over = True
        self.octets += len(octets)
        self.tail = (self.tail + octets)[-24:]
        if (self.octets - 32) % 20 == 0 and self.tail[:2] == b"\x01\x07" and self.tail[4:8] == b"\x00\x00\x00\x18":
            self.session, self.serial = struct.unpack_from("!xxH4xI", self.tail)
            self.told = (self.octets - 32) // 20


def heard(routers, test, seconds=300):
    """Reads until the test holds of each router."""
    ready = selectors.DefaultSelector()
    for router in routers:
        ready.register(router.socket, selectors.EVENT_READ, router)
    left, ends = set(routers), time.time() + seconds
    while left and time.time() < ends:
        for key, _ in ready.select(1):
            key.data.hear()
            if test(key.data):
                left.discard(key.data)
    ready.close()
    return not left


def processor(process):
    fields = open(f"/proc/{process.pid}/stat").read().rsplit(")", 1)[1].split()
    return (int(fields[11]) + int(fields[12])) / os.sysconf("SC_CLK_TCK")


def memory(process):
    for line in open(f"/proc/{process.pid}/status"):
        if line.startswith("VmHWM"):
            return int(line.split()[1]) // 1024


def begin(kind, port):
    if kind == "stayrtr":
        words = [shutil.which("stayrtr"), "-bind", f"127.0.0.1:{port}", "-cache", "list.json", "-checktime=false", "-metrics.addr", "", "-protocol", "1", "-refresh", "1", "-log.verbose=false", "-loglevel", "error"]
    else:
        with open("settings.toml", "w") as file:
            file.write(f'listen = "127.0.0.1:{port}"\ncsv = "list.json"\nsession = 7\nreread = 1\n')
        words = [OVCACHE, "settings.toml"]
    return subprocess.Popen(words, stdout=subprocess.DEVNULL, stderr=subprocess.DEVNULL)


def connected(kind_of_router, port):
    for _ in range(1200):
        try:
            return kind_of_router(port)
        except OSError:
            time.sleep(0.05)
    sys.exit("nobody listens")


def answered(port):
    """The first router that is told a list: until there is one, a cache closes, or tells that it has no data."""
    while True:
        router = connected(Counter, port)
        router.ask()
        heard([router], lambda it: it.serial is not None or it.is_over, 120)
        if router.serial is not None or not router.is_over:
            return router
        time.sleep(0.1)


def run(kind, port):
    written(0)
    os.replace("new.json", "list.json")
    begun = time.monotonic()
    process = begin(kind, port)
    first = answered(port)
    look(f"{kind}: the first response is the list", first.told == PAYLOADS)
    print(f"{kind}: first response behind {time.monotonic() - begun:.2f} s, {processor(process):.2f} of processor, {memory(process)} MB", flush=True)
    for count in (1, 16, 200):
        routers = [connected(Counter, port) for _ in range(count)]
        used, begun = processor(process), time.monotonic()
        for router in routers:
            router.ask()
        look(f"{kind}: {count} are told all", heard(routers, lambda router: router.serial is not None) and all(router.told == PAYLOADS for router in routers))
        print(f"{kind}: {count} routers {time.monotonic() - begun:.2f} s, {processor(process) - used:.2f} of processor, {memory(process)} MB", flush=True)
        for router in routers:
            router.socket.close()
    routers = [connected(Router, port) for _ in range(16)]
    for router in routers:
        router.ask()
    look(f"{kind}: sixteen are told all", heard(routers, lambda router: router.serial is not None))
    serials = [router.serial for router in routers]
    used = processor(process)
    time.sleep(10)
    print(f"{kind}: ten seconds of an unchanged list, {processor(process) - used:.2f} of processor", flush=True)
    written(CHANGED)
    used, begun = processor(process), time.monotonic()
    os.replace("new.json", "list.json")
    look(f"{kind}: sixteen are notified", heard(routers, lambda router: router.notified is not None, 60))
    notified = time.monotonic()
    for router, serial in zip(routers, serials):
        router.ask_from(serial)
    look(f"{kind}: sixteen are told the change", heard(routers, lambda router: router.serial is not None and (router.told, router.gone) == (CHANGED, CHANGED)))
    print(f"{kind}: a change of {2 * CHANGED} rows: notified behind {notified - begun:.2f} s, told in {time.monotonic() - notified:.2f} s, {processor(process) - used:.2f} of processor, {memory(process)} MB", flush=True)
    process.kill()
    process.wait()


os.chdir(tempfile.mkdtemp())
for number, kind in enumerate(("stayrtr", "ovcache")):
    run(kind, 18_323 + number)
sys.exit(1 if failed else 0)
