#!/usr/bin/env python3
"""cache_operators.py OVCACHE: a cache over loopback, asked and commanded at its control socket while it runs, with a router beside. It
prints a line for each thing that is looked at, and ends with 1 where one isn't as it should be. Where OVCACHE is several words, they
are one argument."""
import os
import shlex
import socket
import subprocess
import sys
import tempfile
import time

HEAD = "ASN,IP Prefix,Max Length,Trust Anchor\n"
SETTINGS = 'listen = "127.0.0.1:{port}"\ncsv = "{folder}/list"\nsession = 7\nmin_payloads = 5\nmax_shrink = 50\ncontrol = "{folder}/socket"\n'
RESET_QUERY = bytes([1, 2, 0, 0, 0, 0, 0, 8])
failed = []


def look(what, well):
    print("ok" if well else "WRONG", what, flush=True)
    if not well:
        failed.append(what)


def write(count):
    with open("list.new", "w") as file:
        file.write(HEAD + "".join(f"AS65002,10.{i // 256}.{i % 256}.0/24,24,ta\n" for i in range(count)))
    os.rename("list.new", "list")


def ask(line):
    """What the line is answered."""
    with socket.socket(socket.AF_UNIX) as operator:
        operator.settimeout(20)
        operator.connect("socket")
        operator.sendall(line.encode() + b"\n")
        octets = b""
        while True:
            more = operator.recv(65536)
            octets += more
            last = octets[:-1].rsplit(b"\n", 1)[-1]
            if not more or octets.endswith(b"\n") and last.startswith((b"ok", b"end", b"refused", b"bad line")):
                return octets.decode()


def router(port):
    """A router that has asked for the list, and how many payloads it was told."""
    stream = socket.create_connection(("127.0.0.1", port), 20)
    stream.sendall(RESET_QUERY)
    octets = b""
    while True:
        octets += stream.recv(65536)
        place, told = 0, 0
        while place + 8 <= len(octets):
            if octets[place + 1] == 7:
                return stream, told
            told += octets[place + 1] == 4
            place += int.from_bytes(octets[place + 4:place + 8], "big")


def hostile():
    half = socket.socket(socket.AF_UNIX)
    half.connect("socket")
    half.sendall(b"acc")
    look("a half line is no line", "payloads 20000" in ask("show versions"))
    long = socket.socket(socket.AF_UNIX)
    long.connect("socket")
    try:
        long.sendall(b"accept " * 100_000)
    except OSError:
        pass
    look("a long line does nothing", ask("show versions").startswith("serial 1 payloads 20000\n"))
    text = socket.socket(socket.AF_UNIX)
    text.settimeout(20)
    text.connect("socket")
    text.sendall(bytes(range(128, 256)) + b"\n")
    look("octets that are no text are a bad line", text.recv(100) == b"bad line\n")
    flood = socket.socket(socket.AF_UNIX)
    flood.connect("socket")
    flood.sendall(b"reread\n" * 200)
    flood.close()
    many = [socket.socket(socket.AF_UNIX) for _ in range(40)]
    for operator in many:
        operator.connect("socket")
    for operator in many + [half, long, text]:
        operator.close()
    look("a flood and forty come and go", ask("help").endswith("help\nend\n"))


def main(program, folder):
    os.chdir(folder)
    with socket.create_server(("127.0.0.1", 0)) as free:
        port = free.getsockname()[1]
    write(20_000)
    with open("settings", "w") as file:
        file.write(SETTINGS.format(port=port, folder=folder))
    cache = subprocess.Popen(shlex.split(program) + [f"{folder}/settings"], stdin=subprocess.DEVNULL)
    for _ in range(4000):
        if os.path.exists("socket"):
            break
        time.sleep(0.1)
    look("the socket is there", os.path.exists("socket"))
    look("one version", ask("show versions") == "serial 1 payloads 20000\nend\n")
    look("no clients", ask("show clients") == "end\n")
    stream, told = router(port)
    look("a router is told all", told == 20_000)
    rows = ask("show clients").splitlines()
    look("and is shown", len(rows) == 2 and rows[0].startswith("127.0.0.1:") and rows[0].endswith(" version 1 serial 1"))
    rows = ask("show payloads").splitlines()
    look("all payloads are shown, in pieces", len(rows) == 20_001 and len(set(rows)) == 20_001)
    look("one prefix", ask("show payloads 10.3.4.0/24") == "10.3.4.0/24-24 AS65002\nend\n")
    look("what covers it", ask("show payloads 10.3.4.128/25") == ask("show payloads 10.3.4.0/24"))
    look("what lies within", len(ask("show payloads 10.3.0.0/16").splitlines()) == 257)
    look("no prefix is a bad line", ask("show payloads 10.3.4.0") == "bad line\n")
    look("a reading of the same", ask("reread") == "ok the same 20000 payloads\n")
    look("nothing to accept", ask("accept").startswith("refused: no guard"))
    hostile()
    write(9_000)
    look("a list that shrinks is refused", ask("reread").startswith("refused: it has 9000 payloads: 11000 of the 20000"))
    look("why is shown", "list refused: it has 9000 payloads: 11000 of the 20000" in ask("show list"))
    look("and what was served is", ask("show versions") == "serial 1 payloads 20000\nend\n")
    write(8_000)
    look("no other is accepted", ask("accept") == "refused: it has 8000 payloads, and the one that was refused had 9000\n")
    write(9_000)
    look("nor is what was shown before", ask("accept") == "refused: it has 9000 payloads, and the one that was refused had 8000\n")
    look("it is accepted", ask("accept") == "ok serial 2 payloads 9000\n")
    look("that is shown", ", accepted: serial 2, payloads 9000," in ask("show list"))
    look("and served", router(port)[1] == 9_000)
    write(3)
    look("once", ask("reread").startswith("refused: it has 3 payloads"))
    write(9_000)
    look("then it is a list as any", ask("reread") == "ok the same 9000 payloads\n" and "accepted" not in ask("show list"))
    look("two versions", ask("show versions") == "serial 2 payloads 9000\nserial 1\nend\n")
    write(3)
    look("a faulty list isn't accepted", ask("reread").startswith("refused:"))
    with open("list", "w") as file:
        file.write("nonsense\n")
    look("also behind one that a guard refused", ask("accept").startswith("refused: row 0"))
    look("stop is obeyed", ask("stop") == "ok\n")
    look("and ends the program well", cache.wait(20) == 0)
    stream.close()


with tempfile.TemporaryDirectory() as place:
    main(sys.argv[1], place)
sys.exit(bool(failed))
