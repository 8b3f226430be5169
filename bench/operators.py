#!/usr/bin/env python3
"""operators.py OVBGPD OVCTL: two speakers over loopback, asked and commanded at their control sockets while they run, and operators who
mean no good. It prints a line for each thing that is looked at, and ends with 1 where one isn't as it should be."""
import os
import socket
import subprocess
import sys
import tempfile
import time

OVBGPD, OVCTL = (os.path.abspath(path) for path in sys.argv[1:3])
SETTINGS = """as = {asn}
identifier = "192.0.2.{host}"
commands = "commands.{host}"
control = "socket.{host}"
{more}
[[peer]]
slot = 0
remote = "{remote}"
"""
PEER = "peer 0 65000 192.0.2.1 192.0.2.2 active 90 all all"
COMMANDS = {
    1: "reach 192.0.2.0/24 10\nnetwork 198.51.100.0/24\npeer 0 65001 192.0.2.2 192.0.2.1 passive 90 all all\nenable 0\n",
    2: f"reach 192.0.2.0/24 10\n{PEER}\n",
}
failed = []


def look(what, well):
    print("ok" if well else "WRONG", what, flush=True)
    if not well:
        failed.append(what)


def ask(host, line):
    ran = subprocess.run([OVCTL, f"socket.{host}", *line.split(" ")], capture_output=True, text=True, timeout=30)
    return ran.returncode, ran.stdout


def comes(host, line, test, seconds=60):
    ends = time.time() + seconds
    while time.time() < ends:
        if test(ask(host, line)[1]):
            return True
        time.sleep(0.2)
    return False


def connected(host):
    operator = socket.socket(socket.AF_UNIX)
    operator.settimeout(10)
    operator.connect(f"socket.{host}")
    return operator


def hear(operator):
    octets = b""
    while True:
        try:
            more = operator.recv(65536)
        except OSError:
            return octets
        if not more:
            return octets
        octets += more
        if octets.endswith((b"end\n", b"ok\n")) or b"refused" in octets or b"bad line" in octets and octets.endswith(b"\n"):
            return octets


def begin(host, asn, remote, more):
    with open(f"commands.{host}", "w") as file:
        file.write(COMMANDS[host])
    with open(f"settings.{host}", "w") as file:
        file.write(SETTINGS.format(asn=asn, host=host, remote=remote, more=more))
    return subprocess.Popen([OVBGPD, f"settings.{host}"], stdout=subprocess.PIPE, stderr=subprocess.PIPE, text=True)


def hostile(host):
    half = connected(host)
    half.sendall(b"show ri")
    look("a half line is no line, and others are answered", ask(host, "show sessions")[0] == 0)
    half.sendall(b"b\n")
    look("its other half makes it one", hear(half).endswith(b"end\n"))
    long = connected(host)
    try:
        long.sendall(b"x" * 1_000_000)
    except OSError:
        pass
    look("a line of a million octets gets no table", not hear(long).endswith(b"end\n"))
    text = connected(host)
    text.sendall(bytes(range(128, 256)) + b"\n")
    look("octets that are no text are a bad line", hear(text).startswith(b"bad line"))
    flood = connected(host)
    flood.sendall(b"show rib\n" * 200)
    flood.close()
    look("one who floods and goes is let go", ask(host, "show sessions")[0] == 0)
    many = []
    for _ in range(40):
        many.append(connected(host))
    for operator in many:
        operator.close()
    look("forty come and go", comes(host, "show sessions", lambda text: text.endswith("end\n")))
    crowd(host)


def crowd(host):
    """Ten thousand connections, a line without end, and one who goes in the middle of an answer."""
    came = 0
    for _ in range(10_000):
        operator = socket.socket(socket.AF_UNIX)
        operator.settimeout(10)
        try:
            operator.connect(f"socket.{host}")
            came += 1
        except OSError:
            time.sleep(0.01)
        operator.close()
    look(f"ten thousand come, of which {came} are let in, and others are answered", comes(host, "show sessions", lambda text: text.endswith("end\n")))
    endless, sent = connected(host), 0
    try:
        while sent < 1_000_000_000:
            sent += endless.send(b"x" * 1_000_000)
    except OSError:
        pass
    endless.close()
    look(f"a line of a thousand million octets is let go behind {sent}", sent < 2_000_000)
    for _ in range(100):
        operator = connected(host)
        operator.sendall(b"show rib\nshow peers\nhelp\n")
        operator.recv(5)
        operator.close()
    look("a hundred go in the middle of an answer", comes(host, "show sessions", lambda text: text.endswith("end\n")))


def main():
    one = begin(1, 65000, "127.0.0.1:1", 'listen = "127.0.0.1:17931"')
    two = begin(2, 65001, "127.0.0.1:17931", "")
    for host in (1, 2):
        for _ in range(100):
            if os.path.exists(f"socket.{host}"):
                break
            time.sleep(0.1)
    look("no session is up", "Established" not in ask(2, "show sessions")[1])
    look("enable is obeyed", ask(2, "enable 0") == (0, "ok\n"))
    look("the session comes up", comes(2, "show sessions", lambda text: "0 Established" in text))
    look("the route is there", comes(2, "show rib", lambda text: text.startswith("198.51.100.0/24 0 NotFound")))
    ROW = "198.51.100.0/24 0 NotFound 100 best: path 65000 next-hop 192.0.2.1 origin igp\nend\n"
    look("the routes to it, and why", comes(2, "show rib 198.51.100.0/24", lambda text: text == ROW))
    look("one's own are local", ask(1, "show rib 198.51.100.0/24") == (0, "198.51.100.0/24 local NotFound 4294967296 best\nend\n"))
    look("to another prefix there is none", ask(2, "show rib 198.51.100.0/25") == (0, "end\n"))
    look("no prefix is a bad line", ask(2, "show rib 198.51.100.1/24")[1].startswith("bad line"))
    look("a slot's routes are in words", ask(2, "show in 0") == (0, "198.51.100.0/24 NotFound AS65000 path 65000 next-hop 192.0.2.1 origin igp\nend\n"))
    look("and in octets", ask(2, "show octets 0")[1].startswith("198.51.100.0/24 40"))
    for table in ("in", "octets", "held", "waiting"):
        look(f"a slot without a peer has no {table}", ask(2, f"show {table} 7") == (1, "refused 40 slot 7 has no peer\n"))
    look("peers are shown", comes(2, "show peers", lambda text: text.startswith("0 Established for ") and " received 1 held " in text))
    look("no cache is shown", ask(2, "show cache") == (0, "nocache\nend\n"))
    look("lines are listed", ask(2, "help")[1].endswith("help\nend\n"))
    look("a network is told at once", ask(1, "network 203.0.113.0/24") == (0, "ok\n"))
    look("and is there", comes(2, "show rib", lambda text: "203.0.113.0/24 0" in text))
    look("a policy is told", ask(2, "policy far prefix 203.0.113.0/24 24 32 reject ; accept degree 200") == (0, "ok policy far: rules 2, what no rule matches is rejected\n"))
    look("one that accepts nothing is told so", ask(2, "policy cut state invalid reject")[1] == "ok policy cut: rules 1, it rejects every route\n")
    look("a rule without words is a bad line", ask(2, "policy cut accept ;")[1].startswith("bad line: "))
    look("it is used", ask(2, "use in 0 far") == (0, "ok\n"))
    look("policies are shown", ask(2, "show policies") == (0, "policy far prefix 203.0.113.0/24 24 32 reject ; accept degree 200\n# in 0, out\npolicy cut state invalid reject\n# in, out\nend\n"))
    look("a filter is told", ask(2, "filter both 10.0.0.0/8 64496") == (0, "ok\n"))
    look("a payload is asserted", ask(2, "assert 10.0.0.0/8 24 64497") == (0, "ok\n"))
    look("it is in force", ask(2, "show payloads") == (0, "10.0.0.0/8-24 AS64497\nend\n"))
    look("exceptions are shown", ask(2, "show exceptions") == (0, "filter both 10.0.0.0/8 64496\nassert 10.0.0.0/8 24 64497\nend\n"))
    look("they go again", ask(2, "nofilter both 10.0.0.0/8 64496") == (0, "ok\n") and ask(2, "noassert 10.0.0.0/8 24 64497") == (0, "ok\n"))
    look("and none is shown", ask(2, "show exceptions") == (0, "end\n"))
    REJECTED = "203.0.113.0/24 0 no candidate, the import policy rejects it: path 65000 next-hop 192.0.2.1 origin igp\nend\n"
    look("why a route is no candidate", comes(2, "show rib 203.0.113.0/24", lambda text: text == REJECTED))
    look("another one's degree", ask(2, "show rib 198.51.100.0/24")[1].startswith("198.51.100.0/24 0 NotFound 200 best: "))
    look("a policy is refused by its number", ask(2, "use in 0 nobody")[0] == 1)
    look("another import policy", ask(2, "use in 0 none") == (0, "ok\n"))
    look("takes the routes away", comes(2, "show rib", lambda text: text == "end\n"))
    look("a peer is dropped", ask(2, "drop 0") == (0, "ok\n"))
    look("and its session ends", comes(1, "show sessions", lambda text: "Established" not in text))
    look("it is added again", comes(2, PEER, lambda text: text == "ok\n"))
    look("and enabled", ask(2, "enable 0") == (0, "ok\n"))
    look("and is up again", comes(2, "show sessions", lambda text: "0 Established" in text, 200))
    look("a session is cleared", ask(2, "clear 0") == (0, "ok\n"))
    look("it ends", comes(1, "show sessions", lambda text: "Established" not in text))
    look("no slot is cleared that has no peer", ask(2, "clear 7")[1].startswith("refused 40 "))
    look("nor one that is none", ask(2, "clear all")[1].startswith("bad line"))
    look("it comes up again", comes(2, "show sessions", lambda text: "0 Established" in text, 300))
    hostile(2)
    look("the session stood", "0 Established" in ask(2, "show sessions")[1])
    look("stop is obeyed", ask(1, "stop") == (0, "ok\n"))
    look("and ends the program well", one.wait(20) == 0)
    look("which the peer hears", comes(2, "show sessions", lambda text: "Established" not in text))
    ask(2, "stop")
    look("both have ended", two.wait(20) == 0)


with tempfile.TemporaryDirectory() as folder:
    os.chdir(folder)
    main()
sys.exit(1 if failed else 0)
