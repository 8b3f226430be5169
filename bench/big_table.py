#!/usr/bin/env python3
"""big_table.py OVBGPD [ROUTES]: one peer announces so many routes (1,000,000), another one's thousand routes come and go, and three
operators look at the table: one reads as fast as it can, one as slowly as it may, one asks for the sessions all the time and measures
how long it waits. It prints figures, and ends with 1 where a row is missing, a place is lost or an answer doesn't come."""
import ipaddress
import os
import socket
import struct
import subprocess
import sys
import tempfile
import threading
import time

OVBGPD = os.path.abspath(sys.argv[1])
ROUTES = int(sys.argv[2]) if len(sys.argv) > 2 else 1_000_000
PORT = 17945
FLAPPING = 1000
SECONDS = 60
SETTINGS = f"""as = 65000
identifier = "192.0.2.100"
commands = "commands"
control = "socket"
listen = "127.0.0.1:{PORT}"
[[peer]]
slot = 0
remote = "127.0.0.11:179"
[[peer]]
slot = 1
remote = "127.0.0.12:179"
"""
# A peer connects from 127.0.0.N, and is 192.0.2.N to the speaker.
COMMANDS = """reach 192.0.2.0/24 10
peer 0 65001 192.0.2.11 192.0.2.1 passive 90 all none
peer 1 65002 192.0.2.12 192.0.2.1 passive 90 all none
enable 0
enable 1
"""
failed = []


def look(what, well):
    print("ok" if well else "WRONG", what, flush=True)
    if not well:
        failed.append(what)


def message(kind, body=b""):
    return b"\xff" * 16 + struct.pack("!HB", 19 + len(body), kind) + body


def opening(asn, address):
    capability = struct.pack("!BBI", 65, 4, asn)
    option = struct.pack("!BB", 2, len(capability)) + capability
    return message(1, struct.pack("!BHH4sB", 4, asn, 90, socket.inet_aton(address), len(option)) + option)


def attributes(asn, address):
    path = struct.pack("!BBBBBI", 0x40, 2, 6, 2, 1, asn)
    return b"\x40\x01\x01\x00" + path + b"\x40\x03\x04" + socket.inet_aton(address)


def spelled(number):
    return b"\x18" + struct.pack("!I", (10 << 24) + (number << 8))[:3] if number < 65536 else b"\x20" + struct.pack("!I", (20 << 24) + number)


def announcing(asn, address, numbers):
    written = attributes(asn, address)
    return message(2, struct.pack("!HH", 0, len(written)) + written + b"".join(map(spelled, numbers)))


def withdrawing(numbers):
    gone = b"".join(map(spelled, numbers))
    return message(2, struct.pack("!H", len(gone)) + gone + b"\x00\x00")


class Peer:
    """A session that is kept alive, whatever comes."""

    def __init__(self, asn, host):
        self.asn, self.address = asn, f"192.0.2.{host}"
        self.lock = threading.Lock()
        self.socket = socket.socket()
        self.socket.bind((f"127.0.0.{host}", 0))
        self.socket.connect(("127.0.0.1", PORT))
        self.send(opening(asn, self.address) + message(4))
        threading.Thread(target=self.hear, daemon=True).start()
        threading.Thread(target=self.live, daemon=True).start()

    def send(self, octets):
        with self.lock:
            self.socket.sendall(octets)

    def hear(self):
        try:
            while self.socket.recv(65536):
                pass
        except OSError:
            pass

    def live(self):
        try:
            while True:
                time.sleep(10)
                self.send(message(4))
        except OSError:
            pass

    def tell(self, numbers):
        for first in range(0, len(numbers), 700):
            self.send(announcing(self.asn, self.address, numbers[first:first + 700]))

    def take_back(self, numbers):
        for first in range(0, len(numbers), 700):
            self.send(withdrawing(numbers[first:first + 700]))


def operator():
    asked = socket.socket(socket.AF_UNIX)
    asked.settimeout(120)
    asked.connect("socket")
    return asked


def answer(line):
    asked = operator()
    asked.sendall(line.encode() + b"\n")
    octets = b""
    while not octets.endswith((b"end\n", b"ok\n")) and b"refused" not in octets:
        more = asked.recv(1 << 20)
        if not more:
            break
        octets += more
    asked.close()
    return octets.decode()


def memory(process, name):
    for line in open(f"/proc/{process.pid}/status"):
        if line.startswith(name):
            return int(line.split()[1]) // 1024


def processor(process):
    fields = open(f"/proc/{process.pid}/stat").read().rsplit(")", 1)[1].split()
    return (int(fields[11]) + int(fields[12])) / os.sysconf("SC_CLK_TCK")


def received():
    rows = answer("show peers").splitlines()
    return sum(int(row.split(" received ")[1].split()[0]) for row in rows if " received " in row)


class Waits(threading.Thread):
    """Asks for the sessions again and again, and keeps how long the longest answer took."""

    def __init__(self):
        super().__init__(daemon=True)
        self.longest, self.asked, self.ends = 0.0, 0, False

    def run(self):
        while not self.ends:
            begun = time.monotonic()
            if not answer("show sessions").endswith("end\n"):
                look("an answer is whole", False)
            self.longest = max(self.longest, time.monotonic() - begun)
            self.asked += 1
            time.sleep(0.02)

    def told(self, what):
        print(f"   {what}: asked {self.asked} times, longest wait {self.longest:.3f} s", flush=True)
        self.longest, self.asked = 0.0, 0


class Slow(threading.Thread):
    """Reads a table as slowly as this: 4,096 octets ten times a second."""

    def __init__(self):
        super().__init__(daemon=True)
        self.octets, self.lost, self.ends = 0, False, False

    def run(self):
        asked = operator()
        asked.sendall(b"show rib\n")
        while not self.ends:
            more = asked.recv(4096)
            if not more:
                self.lost = True
                return
            self.octets += len(more)
            time.sleep(0.1)
        asked.close()


def fast():
    begun = time.monotonic()
    asked = operator()
    asked.sendall(b"show rib\n")
    rows, last, tail = 0, b"", b""
    while not tail.endswith(b"\nend\n"):
        more = asked.recv(1 << 20)
        if not more:
            break
        rows += more.count(b"\n")
        tail = (tail + more)[-64:]
    asked.close()
    return rows - 1, time.monotonic() - begun


def flap(peer, numbers, ends):
    while not ends.is_set():
        peer.take_back(numbers)
        time.sleep(0.1)
        peer.tell(numbers)
        time.sleep(0.1)


def until(test, seconds):
    ends = time.time() + seconds
    while time.time() < ends:
        if test():
            return True
        time.sleep(0.5)
    return False


def main():
    open("settings", "w").write(SETTINGS)
    open("commands", "w").write(COMMANDS)
    process = subprocess.Popen([OVBGPD, "settings"], stdout=subprocess.DEVNULL)
    until(lambda: os.path.exists("socket"), 20)
    source, flapper = Peer(65001, 11), Peer(65002, 12)
    look("both sessions come up", until(lambda: answer("show sessions").count("Established") == 2, 60))
    begun = time.monotonic()
    source.tell(range(FLAPPING, FLAPPING + ROUTES))
    look(f"{ROUTES} routes are taken", until(lambda: received() == ROUTES, 300))
    print(f"   in {time.monotonic() - begun:.1f} s, {memory(process, 'VmRSS')} MB", flush=True)
    waits = Waits()
    waits.start()
    time.sleep(10)
    waits.told("nobody reads, nothing flaps")
    ends = threading.Event()
    threading.Thread(target=flap, args=(flapper, range(FLAPPING), ends), daemon=True).start()
    time.sleep(10)
    waits.told("a thousand routes flap five times a second")
    slow = Slow()
    slow.start()
    time.sleep(10)
    waits.told("and one reads slowly")
    used = processor(process)
    rows, seconds = fast()
    waits.told("and one reads as fast as it can")
    print(f"   {rows} rows in {seconds:.1f} s, {processor(process) - used:.1f} s of processor, {memory(process, 'VmRSS')} MB", flush=True)
    look("each route that stays is a row", ROUTES <= rows <= ROUTES + FLAPPING)
    time.sleep(SECONDS)
    waits.told(f"{SECONDS} s more with the slow one")
    look("the slow one keeps its place", not slow.lost and slow.octets > 0)
    print(f"   at most {memory(process, 'VmHWM')} MB", flush=True)
    ends.set()
    slow.ends = waits.ends = True
    time.sleep(1)
    look("both sessions are still up", answer("show sessions").count("Established") == 2)
    look("stop is obeyed", answer("stop").endswith("ok\n") and process.wait(60) == 0)


os.chdir(tempfile.mkdtemp())
main()
sys.exit(1 if failed else 0)
