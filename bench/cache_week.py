#!/usr/bin/env python3
"""cache_week.py OVCACHE [OVBGPD] [--seed N] [--rows N] [--changes N] [--keep]: a week of a validator's life, in some minutes.

A cache is driven through a week: its list comes in every form that validators write, rows come, go, change and expire; lists
are broken in every way, once each; the cache begins anew five times; and for three days no list is written, with stale = "serve" and,
where the cache knows the key, with "withdraw". Routers follow it all along: rtrclient of rtr-tools, BIRD, a reader of this
script, a router that has just come, and OVBGPD where it is given. At each step what each of them holds is compared with what a model of
this script says: the last list without fault that the guards let pass, without what has expired.

The hours pass by Debian's libfaketime (package faketime). Where it isn't there, nothing expires, and the age of the list's file is
set back instead. It prints a line for each part and one of counts, and ends with 0; or it ends with 1 at the first difference."""
import argparse
import glob
import gzip
import itertools
import json
import os
import random
import re
import select
import shutil
import signal
import socket
import struct
import subprocess
import sys
import tempfile
import threading
import time

MOST_GO, HOUR, MAX_AGE, SOON, PATIENCE = 10, 3600, 5 * 3600, 20, 60
SETTINGS = """listen = "127.0.0.1:{port}"
csv = "list"
session = "clock"
other_session = "reset"
control = "control"
reread = 3
refresh = 5
retry = 5
expire = 600
min_payloads = {least}
max_shrink = {most}
expires = {expires}
max_age = {age}
log = true
status = 1
"""
BIRD = """router id 192.0.2.9;
roa4 table r4;
protocol device {{}}
protocol rpki cache {{ roa4 {{ table r4; }}; remote 127.0.0.1 port {port}; retry 5; refresh 5; expire 600; }}
"""
SPEAKER = 'as = 65000\nidentifier = "192.0.2.1"\ncommands = "commands"\ncache = "127.0.0.1:{port}"\ncontrol = "speaker"\n'


class Difference(Exception):
    """What isn't as it should be."""


def want(well, what):
    if not well:
        raise Difference(what)


def until(test, what, seconds=PATIENCE):
    ends = time.monotonic() + seconds
    while not test():
        want(time.monotonic() < ends, what)
        time.sleep(0.05)


# ---------------------------------------------------------------- the clock

class Clock:
    """The week's clock: that of the machine, so many seconds later. A cache that is begun with `environment` reads it."""

    def __init__(self, program):
        self.ahead = 0
        found = glob.glob("/usr/lib/*/faketime/libfaketime.so.1")
        self.environment = dict(os.environ)
        self.faked = False
        if found:
            self.set_ahead()
            told = {"LD_PRELOAD": found[0], "FAKETIME_TIMESTAMP_FILE": os.path.abspath("ahead"), "FAKETIME_NO_CACHE": "1",
                    "FAKETIME_DONT_FAKE_MONOTONIC": "1", "NO_FAKE_STAT": "1"}
            self.faked = self.is_obeyed(program, told)
            if self.faked:
                self.environment.update(told)
        self.ahead = 0
        self.set_ahead()

    def is_obeyed(self, program, told):
        """Whether the log of the program is of another year under it."""
        self.ahead = 20 * 365 * 24 * HOUR
        self.set_ahead()
        with open("list", "w") as file:
            file.write("ASN,IP Prefix,Max Length,Trust Anchor\n")
        with open("probe", "w") as file:
            file.write('listen = "127.0.0.1:0"\ncsv = "list"\nsession = 1\nlog = true\n')
        ran = subprocess.run([program, "probe", "1"], env={**os.environ, **told}, capture_output=True, text=True, timeout=60)
        return ran.stdout[:4] >= str(time.gmtime().tm_year + 19)

    def set_ahead(self):
        with open("ahead.new", "w") as file:
            file.write(f"+{self.ahead}\n")
        os.rename("ahead.new", "ahead")

    def now(self):
        return time.time() + (self.ahead if self.faked else 0)

    def go_on(self, seconds, expiries):
        """The clock goes on, and stands far from each moment at which something expires."""
        self.ahead += seconds
        while self.faked and any(abs(self.now() - moment) < 40 for moment in expiries):
            self.ahead += 80
        self.set_ahead()
        if not self.faked and os.path.exists("list"):
            written = os.stat("list").st_mtime - seconds
            os.utime("list", (written, written))


# ---------------------------------------------------------------- lists

def text_of(payload):
    bits, length, most, asn = payload
    return f"{socket.inet_ntoa(struct.pack('>I', bits))}/{length}", most, asn


class Offer:
    """A list: its octets, the payloads of its rows with the second at which each expires, or what a refusal of it says."""

    def __init__(self, name, octets, rows=None, says=None):
        self.name, self.octets, self.rows, self.says = name, octets, rows, says

    def put(self, clock):
        """Takes the place of the list that is there, as a validator does it."""
        if callable(self.octets):
            self.octets()
            return
        with open("list.new", "wb") as file:
            file.write(self.octets)
        os.utime("list.new", (clock.now(), clock.now()))
        clear("list", only="folder")
        os.rename("list.new", "list")


def clear(path, only=None):
    if os.path.isdir(path) and not os.path.islink(path):
        os.rmdir(path)
    elif only is None and os.path.lexists(path):
        os.remove(path)


def plain(chance, rows):
    return ["ASN,IP Prefix,Max Length,Trust Anchor"] + [f"AS{a},{p},{m},ta" for p, m, a, _ in rows] + ["AS65000,2001:db8::/32,48,ta"]


def expiring(chance, rows):
    return ["ASN,IP Prefix,Max Length,Trust Anchor,Expires"] + [f"AS{a},{p},{m},ta,{int(e)}" for p, m, a, e in rows] + ["AS1,2001:db8::/32,48,ta,1"]


def extended(chance, rows):
    return ["URI,ASN,IP Prefix,Max Length,Not Before,Not After"] + [f"rsync://h/{i}.roa,AS{a},{p},{m},a,b" for i, (p, m, a, _) in enumerate(rows)]


def rpki_client(rows, expires=True):
    entries = [{"asn": a, "prefix": p, "maxLength": m, "ta": "ta", **({"expires": int(e)} if expires else {})} for p, m, a, e in rows]
    return {"metadata": {"buildmachine": "host", "vrps": len(rows)}, "roas": entries + [{"asn": 1, "prefix": "2001:db8::/32", "maxLength": 48}],
            "bgpsec_keys": [], "aspas": []}


def routinator(rows, now):
    return {"metadata": {"generated": int(now), "generatedTime": time.strftime("%Y-%m-%dT%H:%M:%SZ", time.gmtime(now))},
            "roas": [{"asn": f"AS{a}", "prefix": p, "maxLength": m, "ta": "ta"} for p, m, a, _ in rows]}


class Validator:
    """What a validator finds: payloads, each with the second at which it expires."""

    def __init__(self, chance, clock, count):
        self.chance, self.clock, self.rows = chance, clock, {}
        self.grow(count)

    def payload(self):
        length = self.chance.choice([8, 12, 16, 19, 20, 21, 22, 23, 24, 24, 24, 24, 28, 32])
        first = self.chance.choice([n for n in range(1, 224) if n != 127])
        bits = (first << 24 | self.chance.getrandbits(24)) >> 32 - length << 32 - length
        return bits, length, self.chance.randint(length, 32), self.chance.choice([0, 1, 65535, 65536, 4294967295, self.chance.getrandbits(32)])

    def grow(self, count):
        # Objects of one publication point expire together.
        moments = [int(self.clock.now()) + self.chance.randint(6, 120) * HOUR for _ in range(4)]
        for _ in range(count):
            self.rows[self.payload()] = self.chance.choice(moments)

    def shrink(self, count):
        for payload in self.chance.sample(sorted(self.rows), min(count, len(self.rows))):
            del self.rows[payload]

    def go_on(self):
        """What expired is renewed, and some rows come, go and change."""
        now = self.clock.now()
        for payload in [payload for payload, moment in self.rows.items() if moment < now + HOUR]:
            self.rows[payload] = int(now) + self.chance.randint(6, 120) * HOUR
        few = len(self.rows) // 40
        kind = self.chance.choice(["same", "come", "go", "change", "change", "come", "go", "all"])
        if kind in ("go", "change", "all"):
            self.shrink(self.chance.randint(1, few))
        if kind in ("come", "change", "all"):
            self.grow(self.chance.randint(1, few))

    def ordered(self, rows):
        listed = [(*text_of(payload), moment) for payload, moment in rows.items()]
        self.chance.shuffle(listed)
        return listed + listed[:3]

    def offer(self, name="a list", rows=None):
        """A list of these rows in one of the forms that validators write."""
        rows = dict(self.rows if rows is None else rows)
        listed = self.ordered(rows)
        form = self.chance.randrange(7)
        if form < 4:
            lines = [plain, expiring, extended, expiring][form](self.chance, listed)
            ends = self.chance.choice(["\n", "\r\n"])
            octets = (ends.join(lines) + ends).encode()
        else:
            lists = [rpki_client(listed), routinator(listed, self.clock.now()), rpki_client(listed, False)]
            octets = json.dumps(lists[form - 4], indent=self.chance.choice([None, 2])).encode()
        if form not in (1, 3, 4):
            rows = {payload: None for payload in rows}
        return Offer(name, octets, rows)

    def row_broken(self, name, says, row):
        lines = plain(self.chance, self.ordered(self.rows))
        at = self.chance.randrange(1, len(lines))
        lines.insert(at, row)
        return Offer(name, "\n".join(lines).encode(), says=f"row {at}: {says}")

    def entry_broken(self, name, says, **members):
        whole = rpki_client(self.ordered(self.rows))
        at = self.chance.randrange(len(whole["roas"]) - 1)
        for key, value in members.items():
            whole["roas"][at][key] = value
        return Offer(name, json.dumps(whole).encode(), says=f"roas[{at}]: {says}")

    def broken(self):
        """A list of each kind that isn't to be served."""
        rows = self.ordered(self.rows)
        lines = plain(self.chance, rows)
        whole = json.dumps(rpki_client(rows)).encode()
        kept = sorted(self.rows)
        text = "\n".join(lines).encode()
        # Behind its first comma: behind the last one it would be whole.
        yield Offer("a torn row", text[:text.index(b",", text.index(b"\n", len(text) // 2)) + 1], says="row ")
        yield Offer("torn JSON", whole[:self.chance.randrange(2, len(whole) - 1)], says="octet ")
        yield Offer("JSON without its last brace", whole[:-1], says=f"octet {len(whole) - 1}: ")
        yield Offer("more behind JSON", whole + b"\n{}", says=f"octet {len(whole) + 1}: ")
        yield Offer("JSON that is no UTF-8", whole.replace(b'"ta"', b'"t\xff"', 1), says="octet ")
        yield Offer("JSON without roas", json.dumps({"metadata": {}}).encode(), says="the list has no member roas")
        yield Offer("roas of no array", json.dumps({"roas": {}}).encode(), says="the member roas is no array")
        yield Offer("roas twice", whole[:-1] + b', "roas": []}', says="the list has a second member roas")
        yield Offer("an array", b'[{"roas": []}]', says="row 0: ")
        yield Offer("an empty file", b"", says="row 0: ")
        yield Offer("white space", b" \n\t\r\n", says="row 0: ")
        yield Offer("no header", "\n".join(lines[1:]).encode(), says="row 0: the first row is not the header")
        yield Offer("another header", text.replace(b"Max Length", b"Maximum", 1), says="row 0: the first row is not the header")
        yield Offer("the header in small letters", text.replace(b"ASN,IP Prefix", b"asn,ip prefix", 1), says="row 0: ")
        yield Offer("a page of a proxy", b"<html><body>502 Bad Gateway</body></html>\n", says="row 0: ")
        yield Offer("compressed", gzip.compress(text), says="row 0: ")
        yield Offer("zeros", bytes(4096), says="row 0: ")
        yield self.row_broken("an AS that is none", "the AS is no AS number", "AS-1,192.0.2.0/24,24,ta")
        yield self.row_broken("an AS too large", "the AS is no AS number", "AS4294967296,192.0.2.0/24,24,ta")
        yield self.row_broken("bits behind the length", "the prefix is no IPv4 prefix", "AS1,192.0.2.1/24,24,ta")
        yield self.row_broken("a length of 33", "the prefix is no IPv4 prefix", "AS1,192.0.2.0/33,33,ta")
        yield self.row_broken("a prefix without length", "the prefix is no IPv4 prefix", "AS1,192.0.2.0,24,ta")
        yield self.row_broken("a maximum of 33", "the maximum length is no number", "AS1,192.0.2.0/24,33,ta")
        yield self.row_broken("a maximum below the length", "the maximum length is no number", "AS1,192.0.2.0/24,23,ta")
        yield self.row_broken("a field too few", "the row has another number of fields", "AS1,192.0.2.0/24,24")
        yield self.row_broken("a field too many", "the row has another number of fields", "AS1,192.0.2.0/24,24,ta,1")
        yield self.row_broken("a quote that isn't closed", "", '"AS1,192.0.2.0/24,24,ta')
        yield self.entry_broken("an entry without AS", "the member asn is missing or no AS number", asn=None)
        yield self.entry_broken("an AS with a fraction", "the member asn is missing or no AS number", asn=1.5)
        yield self.entry_broken("a maximum as text", "the member maxLength is missing or no number", maxLength="24")
        yield self.entry_broken("a prefix that is none", "the member prefix is missing or no IPv4 prefix", prefix="192.0.2.0/24 ")
        yield self.offer("too few", {payload: self.rows[payload] for payload in kept[:9]})
        yield self.offer("none", {})
        yield self.offer("too many go", {payload: self.rows[payload] for payload in kept[len(kept) * (MOST_GO + 5) // 100:]})
        yield Offer("rows torn off between two", "\n".join(lines[:len(lines) * 3 // 4]).encode() + b"\n",
                    {payload: None for payload in self.rows if text_of(payload) in {(p, m, a) for p, m, a, _ in rows[:len(lines) * 3 // 4 - 1]}})
        yield Offer("no file", lambda: clear("list"), says="the file can't be opened")
        yield Offer("a link to nothing", lambda: (clear("list"), os.symlink("nothing", "list")), says="the file can't be opened")
        yield Offer("a folder", lambda: (clear("list"), os.mkdir("list")), says="")


# ---------------------------------------------------------------- what should be

class Model:
    """What the cache serves: the last list without fault that the guards let pass."""

    def __init__(self, clock, least):
        self.clock, self.least = clock, least
        self.served, self.serial, self.offer = set(), 0, None

    def begin(self):
        self.served, self.serial = set(), 0
        return self.read()

    def listed(self):
        now = self.clock.now()
        return {payload for payload, moment in self.offer.rows.items() if moment is None or not self.clock.faked or moment >= now}

    def fault(self):
        """What a refusal of the list that is there says, if it is to be refused."""
        if self.offer.rows is None:
            return self.offer.says
        listed = self.listed()
        going = len(self.served - listed)
        if len(listed) < self.least:
            return f"it has {len(listed)} payloads, and {self.least} are wanted"
        if going * 100 > MOST_GO * len(self.served):
            return f"it has {len(listed)} payloads: {going} of the {len(self.served)} that are served would go, and {MOST_GO} per cent may"
        return None

    def read(self):
        """Reads the list that is there. What its refusal says, or none where it is served from now on."""
        says = self.fault()
        if says is None:
            self.take()
        return says

    def take(self):
        listed = self.listed()
        if listed != self.served or self.serial == 0:
            self.served, self.serial = listed, self.serial + 1


# ---------------------------------------------------------------- routers

class Reader:
    """A router of this script. It keeps its connection, follows by Serial Query, and minds what RFC 8210 forbids."""

    process = None

    def __init__(self, port):
        self.port, self.stream, self.held, self.told = port, None, set(), None
        self.session = self.serial = None
        self.octets, self.errors, self.loads, self.deltas = b"", [], 0, 0
        # When the last query was sent, and whether its answer is still to come: ovcache takes one query at a time.
        self.asked, self.awaits = 0.0, False

    def name(self):
        return "the script's own reader"

    def connect(self):
        try:
            self.stream = socket.create_connection(("127.0.0.1", self.port), 5)
        except OSError:
            self.stream = None
            return
        self.octets, self.told = b"", None
        self.ask()

    def ask(self):
        query = struct.pack(">BBHI", 1, 2, 0, 8) if self.serial is None else struct.pack(">BBHII", 1, 1, self.session, 12, self.serial)
        self.asked, self.awaits = time.monotonic(), True
        self.send(query)

    def send(self, octets):
        try:
            self.stream.sendall(octets)
        except OSError:
            self.stream = None

    def pump(self):
        """Takes what has come; asks anew each second where nothing is under way."""
        if self.stream is None:
            self.connect()
        while self.stream is not None and select.select([self.stream], [], [], 0)[0]:
            try:
                more = self.stream.recv(1 << 16)
            except OSError:
                more = b""
            if not more:
                self.stream = None
                return
            self.octets += more
            while len(self.octets) >= 8 and len(self.octets) >= struct.unpack(">I", self.octets[4:8])[0]:
                length = struct.unpack(">I", self.octets[4:8])[0]
                self.take(self.octets[:length])
                self.octets = self.octets[length:]
        if self.stream is not None and not self.awaits and time.monotonic() - self.asked > 1:
            self.ask()

    def take(self, pdu):
        version, kind, session, length = struct.unpack(">BBHI", pdu[:8])
        want(version == 1, f"a PDU of version {version}")
        if kind == 0 and not self.awaits:
            self.ask()
        elif kind == 3:
            want(self.serial is None or session == self.session, "a Cache Response of another session")
            self.told, self.session = (set() if self.serial is None else set(self.held)), session
            self.loads, self.deltas = self.loads + (self.serial is None), self.deltas + (self.serial is not None)
        elif kind == 4:
            flags, size, most, _, bits, asn = struct.unpack(">BBBBII", pdu[8:20])
            payload = bits, size, most, asn
            want(self.told is not None and (payload in self.told) == (flags == 0), f"{payload} announced twice, or withdrawn and not held")
            (self.told.add if flags else self.told.remove)(payload)
        elif kind == 7:
            want(self.told is not None and session == self.session, "an End of Data of another session")
            self.serial, = struct.unpack(">I", pdu[8:12])
            self.held, self.told, self.awaits = self.told, None, False
        elif kind == 8:
            self.serial = self.told = None
            self.ask()
        elif kind == 10:
            self.errors.append(session)
            self.awaits = False
        else:
            want(kind == 0, f"a PDU of type {kind}")

    def holds(self):
        self.pump()
        return self.held

    def stop(self):
        if self.stream is not None:
            self.stream.close()


class NewReader(Reader):
    """A router that has just come, each time."""

    def name(self):
        return "a router that has just come"

    def holds(self):
        self.stop()
        self.__init__(self.port)
        ends = time.monotonic() + PATIENCE / 2
        while self.serial is None and not self.errors and time.monotonic() < ends:
            self.pump()
            time.sleep(0.01)
        return self.held


class Rtrclient:
    ROW = re.compile(r"([+-]) (\S+) +(\d+) - +(\d+) +(\d+)")

    def __init__(self, port):
        self.held, self.twice = set(), []
        self.process = subprocess.Popen(["stdbuf", "-oL", "rtrclient", "-p", "tcp", "127.0.0.1", str(port)], stdout=subprocess.PIPE,
                                        stderr=open("rtrclient.log", "a"), text=True)
        threading.Thread(target=self.follow, daemon=True).start()

    def name(self):
        return "rtrclient"

    def follow(self):
        for line in self.process.stdout:
            found = self.ROW.match(line)
            if found:
                sign, address, size, most, asn = found.groups()
                payload = struct.unpack(">I", socket.inet_aton(address))[0], int(size), int(most), int(asn)
                (self.held.add if sign == "+" else self.held.discard)(payload)

    def holds(self):
        return set(self.held)

    def stop(self):
        self.process.kill()
        self.process.wait()


class Bird:
    ROW = re.compile(r"(\d+\.\d+\.\d+\.\d+)/(\d+)-(\d+) AS(\d+) ")

    def __init__(self, port):
        with open("bird.conf", "w") as file:
            file.write(BIRD.format(port=port))
        self.process = subprocess.Popen(["bird", "-f", "-c", "bird.conf", "-s", "bird.socket", "-P", "bird.pid"], stderr=subprocess.DEVNULL)
        until(lambda: os.path.exists("bird.socket"), "BIRD begins")

    def name(self):
        return "BIRD"

    def holds(self):
        ran = subprocess.run(["birdc", "-s", "bird.socket", "show route table r4"], capture_output=True, text=True, timeout=60)
        return {(struct.unpack(">I", socket.inet_aton(a))[0], int(s), int(m), int(n)) for a, s, m, n in self.ROW.findall(ran.stdout)}

    def stop(self):
        self.process.kill()
        self.process.wait()


class Speaker:
    def __init__(self, port, program):
        with open("speaker.toml", "w") as file:
            file.write(SPEAKER.format(port=port))
        with open("commands", "w") as file:
            file.write("network 198.51.100.0/24\n")
        self.process = subprocess.Popen([program, "speaker.toml"], stdin=subprocess.DEVNULL)
        until(lambda: os.path.exists("speaker"), "ovbgpd begins")

    def name(self):
        return "ovbgpd"

    def holds(self):
        return {(struct.unpack(">I", socket.inet_aton(a))[0], int(s), int(m), int(n))
                for a, s, m, n in re.findall(r"(\d+\.\d+\.\d+\.\d+)/(\d+)-(\d+) AS(\d+)\n", ask("show payloads", "speaker"))}

    def stop(self):
        self.process.kill()
        self.process.wait()


# ---------------------------------------------------------------- the cache

def ask(line, path="control"):
    """What an operator's line is answered."""
    with socket.socket(socket.AF_UNIX) as operator:
        operator.settimeout(PATIENCE)
        until(lambda: operator.connect_ex(path) == 0, f"there is a place at {path}")
        operator.sendall(line.encode() + b"\n")
        octets = b""
        while True:
            more = operator.recv(65536)
            octets += more
            last = octets[:-1].rsplit(b"\n", 1)[-1]
            if not more or octets.endswith(b"\n") and last.startswith((b"ok", b"end", b"refused", b"bad line")):
                return octets.decode()


class Cache:
    """The program that is looked at, its settings and its log."""

    def __init__(self, program, clock, port, least):
        self.program, self.clock, self.process, self.read = program, clock, None, 0
        self.settings = SETTINGS.format(port=port, least=least, most=MOST_GO, expires=str(clock.faked).lower(), age=MAX_AGE)
        self.write("")

    def write(self, more):
        with open("settings", "w") as file:
            file.write(self.settings + more)

    def takes(self, more):
        """Whether the settings are taken with this line."""
        self.write(more)
        return subprocess.run([self.program, "--check", "settings"], capture_output=True, env=self.clock.environment, timeout=60).returncode == 0

    def run(self):
        clear("control")
        with open("log", "ab") as log:
            # What runs in the background may have SIGINT ignored, and hands that on.
            heed = lambda: signal.signal(signal.SIGINT, signal.SIG_DFL)
            self.process = subprocess.Popen([self.program, "settings"], stdout=log, stderr=log, stdin=subprocess.DEVNULL, env=self.clock.environment, preexec_fn=heed)

    def begin(self):
        self.run()
        until(lambda: os.path.exists("control") or self.process.poll() is not None, "the cache begins")
        want(self.process.poll() is None, f"the cache ended with {self.process.poll()}: {self.news()}")

    def end(self, how):
        if how == "stop":
            want(ask("stop") == "ok\n", "stop is obeyed")
            want(self.process.wait(20) == 0, "stop ends the cache well")
        else:
            self.process.send_signal(how)
            self.process.wait(20)

    def news(self):
        """What the log got since the last look."""
        with open("log", errors="replace") as log:
            log.seek(self.read)
            text = log.read()
            self.read = log.tell()
        return text


# ---------------------------------------------------------------- the week

class Week:
    def __init__(self, options):
        self.chance = random.Random(options.seed)
        self.clock = Clock(options.ovcache)
        with socket.create_server(("127.0.0.1", 0)) as free:
            self.port = free.getsockname()[1]
        least = options.rows // 2
        self.validator = Validator(self.chance, self.clock, options.rows)
        self.model = Model(self.clock, least)
        self.cache = Cache(options.ovcache, self.clock, self.port, least)
        self.options, self.routers, self.new = options, [], NewReader(self.port)
        self.counts = dict.fromkeys(["published", "same", "refused", "accepted", "restarts", "comparisons", "by_timer"], 0)
        self.step, self.began = "the beginning", time.monotonic()

    def come(self):
        self.routers = [Reader(self.port), Rtrclient(self.port), Bird(self.port)]
        if self.options.ovbgpd:
            self.routers.append(Speaker(self.port, self.options.ovbgpd))

    def compare(self):
        """What each router holds, with what the cache serves."""
        for router in self.routers + [self.new]:
            self.follow(router)
            self.counts["comparisons"] += 1

    def follow(self, router):
        should, ends = self.model.served, time.monotonic() + PATIENCE
        while True:
            want(router.process is None or router.process.poll() is None, f"{router.name()} has ended")
            held = router.holds()
            if held == should:
                return
            if time.monotonic() > ends:
                lacking, beside = sorted(should - held)[:3], sorted(held - should)[:3]
                raise Difference(f"{router.name()} holds {len(held)} payloads and should hold {len(should)}: it lacks {lacking}, and has {beside} beside")
            time.sleep(0.05)

    def reread(self, by_timer=False):
        """The list is read: by its timer or by an operator. What came of it is what the model says."""
        before = self.model.serial
        says = self.model.read()
        if by_timer:
            self.counts["by_timer"] += 1
            until(lambda: self.shows(says), f"the list is read by its timer: {says}")
        else:
            self.answered(ask("reread"), says)
        if says is not None:
            self.counts["refused"] += 1
        else:
            self.counts["published" if self.model.serial != before else "same"] += 1
        want(ask("show versions").startswith(f"serial {self.model.serial} payloads {len(self.model.served)}\n"),
             f"show versions: {ask('show versions')!r}, and should be serial {self.model.serial} of {len(self.model.served)} payloads")

    def shows(self, says):
        shown = ask("show list")
        if says is None:
            return f"serial {self.model.serial}, payloads {len(self.model.served)}," in shown and "refused:" not in shown
        return f"list refused: {says}" in shown

    def answered(self, answer, says):
        if says is not None:
            want(answer.startswith(f"refused: {says}"), f"reread is answered {answer!r}, and should be refused: {says}")
            return
        count = len(self.model.served)
        want(answer in (f"ok serial {self.model.serial} payloads {count}\n", f"ok the same {count} payloads\n"),
             f"reread is answered {answer!r}, and should be serial {self.model.serial} of {count} payloads")

    def offer(self, offer):
        self.model.offer = offer
        offer.put(self.clock)

    def hours(self, seconds):
        """Time goes on. What has expired by it is gone with the next reading."""
        offer = self.model.offer
        self.clock.go_on(seconds, {moment for moment in (offer.rows or {}).values() if moment is not None})
        self.reread()

    def begin(self, offer):
        self.offer(offer)
        want(self.model.begin() is None, "the first list is a good one")
        self.cache.begin()
        if not self.routers:
            self.come()
        self.compare()

    def change(self):
        self.hours(self.chance.randint(10, 30) * 60)
        self.validator.go_on()
        self.offer(self.validator.offer())
        self.reread(by_timer=self.chance.random() < 0.2)
        self.compare()

    def large_change(self):
        """So many rows go that the operator has to accept it."""
        self.validator.shrink(len(self.validator.rows) // 5)
        self.offer(self.validator.offer())
        self.reread()
        self.compare()
        self.model.take()
        want(ask("accept") == f"ok serial {self.model.serial} payloads {len(self.model.served)}\n", "the list is accepted")
        self.counts["accepted"] += 1
        self.compare()
        self.validator.grow(self.options.rows - len(self.validator.rows))

    def break_list(self, offer):
        self.hours(10 * 60)
        self.offer(offer)
        self.reread(by_timer=self.chance.random() < 0.2)
        time.sleep(0.2)
        self.compare()

    def restart(self, how):
        """The cache begins anew, behind another list; once behind one that it can't begin with."""
        self.cache.end(signal.SIGTERM if how == "broken" else how)
        self.clock.go_on(60, set())
        if not self.clock.faked:
            time.sleep(1)
        if how == "broken":
            Offer("no list", b"nonsense\n").put(self.clock)
            self.cache.run()
            want(self.cache.process.wait(20) == 1, "a cache with a faulty first list ends with 1")
        self.validator.go_on()
        self.begin(self.validator.offer())
        self.counts["restarts"] += 1

    def flap(self):
        """Routers go and come again; the script's own with what it held."""
        self.routers[0].stop()
        self.routers[0].stream = None
        for place, kind in ((1, Rtrclient), (2, Bird)):
            self.routers[place].stop()
            clear("bird.socket")
            self.routers[place] = kind(self.port)
        self.compare()

    def events(self):
        chance, options = self.chance, self.options
        events = [("a change", self.change)] * options.changes + [("a large change", self.large_change)] * 3 + [("routers come anew", self.flap)] * 3
        for how in ("stop", signal.SIGTERM, signal.SIGKILL, "broken", signal.SIGINT):
            events.append((f"a restart ({how})", lambda how=how: self.restart(how)))
        kinds = len(list(self.validator.broken()))
        for at in range(kinds):
            events.append(("a broken list", lambda at=at: self.break_list(next(itertools.islice(self.validator.broken(), at, None)))))
        chance.shuffle(events)
        return events, kinds

    def live(self):
        self.begin(self.validator.offer())
        print(f"week: begun with {len(self.model.served)} payloads; the clock is {'faked' if self.clock.faked else 'real: nothing expires'}", flush=True)
        events, kinds = self.events()
        for number, (name, event) in enumerate(events):
            self.step = f"event {number}, {name}"
            event()
            self.look_at_log()
        print(f"week: {len(events)} events, {kinds} kinds of broken lists, {self.hours_gone():.0f} hours", flush=True)

    def hours_gone(self):
        return self.clock.ahead / HOUR

    def look_at_log(self):
        """The last list that the log tells of is the one that is served."""
        loaded = re.findall(r"list loaded: serial (\d+), payloads (\d+)\n", self.cache.news())
        if loaded:
            want(loaded[-1] == (str(self.model.serial), str(len(self.model.served))), f"the log's last list is {loaded[-1]}")

    def stale(self):
        """Three days without a list."""
        self.step = "three stale days"
        self.validator.go_on()
        self.offer(self.validator.offer())
        self.reread()
        self.compare()
        self.cache.news()
        written = self.clock.now()
        for number in range(36):
            self.hours(2 * HOUR)
            age = (number + 1) * 2 * HOUR if not self.clock.faked else self.clock.now() - written
            self.is_told_old(age)
            if number % 6 == 0:
                self.compare()
        self.bring()
        print("week: three stale days", flush=True)

    def bring(self):
        """A newer list, which an operator accepts where a guard refuses it."""
        self.validator.go_on()
        self.offer(self.validator.offer())
        if self.model.fault() is not None:
            # So much has expired in between that the operator has to accept what came instead.
            self.reread()
            self.model.take()
            want(ask("accept").startswith("ok "), "the list behind stale days is accepted")
        else:
            self.reread()
        self.compare()

    def is_told_old(self, age):
        """The log warns, at its next status line, just where the file is older than it may be."""
        self.cache.news()
        text = ""
        ends = time.monotonic() + PATIENCE
        # The warning is a line of its own behind the status line, so both have come with the next status line.
        while text.count("status: ") < 2:
            want(time.monotonic() < ends, "the log has status lines")
            time.sleep(0.1)
            text += self.cache.news()
        text = text[:text.rindex("status: ")]
        warned = re.findall(r"list old: written (\d+) seconds ago, and (\d+) may be", text)
        want(bool(warned) == (age > MAX_AGE), f"a list of {age:.0f} seconds: the log has {text!r}")
        want(not warned or abs(int(warned[-1][0]) - age) < 100, f"a list of {age:.0f} seconds is told as {warned}")

    def is_withdrawn(self):
        """Who comes is told that there is no data (RFC 8210 section 8.4); who is there keeps what he has."""
        until(lambda: self.new.holds() == set() and self.new.errors == [2], "a list that is withdrawn is told to who comes")
        self.counts["comparisons"] += 1
        own = self.routers[0]
        own.errors.clear()
        own.stop()
        own.stream = None
        until(lambda: (own.pump(), bool(own.errors))[1], "and to who asks on")
        want(set(own.errors) == {2}, f"a router that asks on behind a withdrawal is answered by {own.errors}")

    def with_withdraw(self):
        """Three lists that grow too old. Their ages are seconds since they were read, which no faked clock makes pass."""
        self.step = "lists that are withdrawn"
        self.cache.settings = self.cache.settings.replace(f"max_age = {MAX_AGE}", f"max_age = {SOON}")
        if not self.cache.takes('stale = "withdraw"\n'):
            self.cache.write("")
            print("week: this cache doesn't know stale = \"withdraw\": left out", flush=True)
            return
        self.restart("stop")
        for _ in range(3):
            self.bring()
            time.sleep(SOON)
            self.is_withdrawn()
        self.bring()
        print("week: three lists withdrawn", flush=True)

    def end(self):
        for router in self.routers:
            router.stop()
        if self.cache.process is not None and self.cache.process.poll() is None:
            self.cache.process.kill()
            self.cache.process.wait()

    def all(self):
        self.live()
        self.stale()
        self.with_withdraw()
        self.cache.end("stop")
        reader = self.routers[0]
        told = ", ".join(f"{value} {key.replace('_', ' ')}" for key, value in self.counts.items())
        print(f"week: {told}; the own reader: {reader.loads} whole loads, {reader.deltas} changes; {time.monotonic() - self.began:.0f} s", flush=True)


def main():
    parser = argparse.ArgumentParser()
    parser.add_argument("ovcache", nargs="?", default=os.environ.get("OVCACHE"))
    parser.add_argument("ovbgpd", nargs="?", default=os.environ.get("OVBGPD"))
    parser.add_argument("--seed", type=int, default=1)
    parser.add_argument("--rows", type=int, default=1000)
    parser.add_argument("--changes", type=int, default=200)
    parser.add_argument("--keep", action="store_true", help="leave the folder where something differs")
    options = parser.parse_args()
    options.ovcache = os.path.abspath(options.ovcache)
    options.ovbgpd = os.path.abspath(options.ovbgpd) if options.ovbgpd else None
    folder = tempfile.mkdtemp()
    os.chdir(folder)
    week = Week(options)
    try:
        week.all()
    except Difference as difference:
        print(f"week: DIFFERENCE at {week.step}, seed {options.seed}, behind {week.model.offer and week.model.offer.name}: {difference}", flush=True)
        return 1
    finally:
        week.end()
        if not options.keep:
            shutil.rmtree(folder)
    return 0


sys.exit(main())
