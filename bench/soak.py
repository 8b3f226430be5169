#!/usr/bin/env python3
"""An hour beside strangers: routers and peers that come, go, stall, reset and send rubbish at a cache and a speaker.

    soak.py OVCACHE OVBGPD [--seconds N] [--idle N] [--routers N] [--peers N] [--routes N] [--flaps N] [--payloads N] [--samples FILE]

Begins both built programs over loopback, the speaker a router of the cache. The list changes each 5 seconds. Of 200 routers
four are good, and are to have each list whole; of 32 peers two are good: one announces 100,000 routes and has them flap, 500 each
twentieth of a second at most, the
other hears. All others do as their draw says. Then all but the good ones go, and nothing changes for a while.

Told are: samples of memory and processor time, how often a good session was lost, the longest silence and the longest delay that
one saw, and what idling costs. Status 0 where both programs stand, no good session was lost, no list was had otherwise than
whole, and memory is flat: of the last quarter of the time no sample is over a tenth and 8 MB above those of the second quarter.
"""
import argparse
import multiprocessing
import os
import random
import select
import signal
import socket
import struct
import subprocess
import sys
import tempfile
import threading
import time

from hostile_octets import MARKER, attribute, error_report, message, update

HOLD = 30
GOOD_ROUTERS, LIST_SECONDS = 4, 5
KEEPALIVE = MARKER + b"\0\x13\4"
RESET_QUERY = b"\1\2\0\0\0\0\0\x08"
OWN_AS, FIRST_AS = 65000, 65001


# ---------------------------------------------------------------- The list

def has(payload, number):
    return (payload * 7919 + number) % 50 != 0


def row(payload):
    return f"AS{payload % 60000 + 1},{payload >> 8 & 255}.{payload & 255}.0.0/16,24,ta"


def payloads_of(number, most):
    """The payloads of a list: those of 1.0.0.0/16 on, but for one in fifty, another one with each list."""
    return {256 + it for it in range(most) if has(256 + it, number)}


def write_list(number, most):
    with open("list.new", "w") as it:
        it.write("ASN,IP Prefix,Max Length,Trust Anchor\n")
        it.writelines(row(payload) + "\n" for payload in sorted(payloads_of(number, most)))
    os.rename("list.new", "list.csv")


# ---------------------------------------------------------------- Routers

def connected(port, source=None):
    made = socket.create_connection(("127.0.0.1", port), 10, (source, 0) if source else None)
    made.settimeout(10)
    return made


def pdus(stream, held):
    """Reads once; the whole PDUs, and what is held then."""
    came = stream.recv(65536)
    if not came:
        raise ConnectionError("the connection ended")
    held += came
    found, place = [], 0
    while len(held) - place >= 8:
        length = struct.unpack(">I", held[place + 4:place + 8])[0]
        if len(held) - place < length:
            break
        found.append(held[place:place + length])
        place += length
    return found, held[place:]


def count(shared, name, more=1):
    with shared[name].get_lock():
        shared[name].value += more


def longest(shared, name, seconds):
    with shared[name].get_lock():
        shared[name].value = max(shared[name].value, seconds)


def good_router(given, shared):
    """Asks for the list, and each second for what changed; counts when what it has is no list, and how long it took to have one."""
    stream = connected(given.cache_port)
    stream.settimeout(60)
    stream.sendall(RESET_QUERY)
    held, mine, last, asked = b"", set(), 0, None
    while not shared["ends"].value:
        if asked is not None and time.time() - asked > 1:
            stream.sendall(struct.pack(">BBHII", 1, 1, session, 12, serial))
            asked = None
        if not select.select([stream], [], [], 0.2)[0]:
            continue
        found, held = pdus(stream, held)
        for pdu in found:
            if pdu[1] == 4:
                mine ^= {struct.unpack(">I", pdu[12:16])[0] >> 16}
            elif pdu[1] == 7:
                session, serial, asked = struct.unpack(">H", pdu[2:4])[0], struct.unpack(">I", pdu[8:12])[0], time.time()
                fits = [it for it in range(last, shared["list"].value + 2) if payloads_of(it, given.payloads) == mine]
                count(shared, "otherwise", not fits)
                count(shared, "lists", bool(fits) and fits[-1] != last)
                if fits and fits[-1] != last and fits[-1] == shared["list"].value:
                    longest(shared, "list_delay", time.time() - shared["list_at"].value)
                last = fits[-1] if fits else last
            elif pdu[1] in (8, 10):
                raise ConnectionError("a Cache Reset or an Error Report")


class NotUp(OSError):
    """A session that didn't come up: in the half minute behind one that was lost none does."""


def keep(work, given, shared):
    """Has a good one go on, and counts how often its session was lost."""
    while not shared["ends"].value:
        try:
            work(given, shared)
        except NotUp:
            time.sleep(1)
        except OSError as fault:
            if not shared["ends"].value:
                count(shared, "lost")
                print(f"lost: {work.__name__}: {fault}", flush=True)
            time.sleep(1)


def reset(stream):
    stream.setsockopt(socket.SOL_SOCKET, socket.SO_LINGER, struct.pack("ii", 1, 0))
    stream.close()


def bad_router(given, draw):
    stream = connected(given.cache_port)
    way = draw.randrange(7)
    if way == 0:
        stream.sendall(draw.randbytes(draw.randrange(1, 200)))
    elif way == 1:
        stream.sendall(RESET_QUERY * draw.randrange(1, 9))
        time.sleep(draw.uniform(1, 30))
    elif way == 2:
        stream.sendall(RESET_QUERY[:draw.randrange(1, 8)])
        time.sleep(draw.uniform(1, 20))
    elif way == 3:
        stream.sendall(draw.choice([error_report(3, b""), struct.pack(">BBHII", 1, 1, draw.randrange(65536), 12, 1), b"\0" + RESET_QUERY[1:]]))
    else:
        stream.sendall(RESET_QUERY)
        ends = time.time() + draw.uniform(0, 15)
        while time.time() < ends and stream.recv(65536):
            pass
    if draw.random() < 0.5:
        reset(stream)
    else:
        stream.close()


# ---------------------------------------------------------------- Peers

def address(slot):
    return f"127.0.{1 + slot // 200}.{1 + slot % 200}"


def open_of(slot):
    asn = FIRST_AS + slot
    return message(1, struct.pack(">BHHIBBBBBI", 4, asn, HOLD, 0x0A000001 + slot, 8, 2, 6, 65, 4, asn))


def attributes_of(slot, ases):
    path = struct.pack(">BB", 2, 1 + len(ases)) + struct.pack(f">{1 + len(ases)}I", FIRST_AS + slot, *ases)
    return attribute(0x40, 1, b"\0") + attribute(0x40, 2, path) + attribute(0x40, 3, bytes([192, 0, 2, 10 + slot]))


def routes(first, block):
    return b"".join(b"\x18" + struct.pack(">I", 0x14000000 + (it << 8))[:3] for it in range(first, first + block))


def messages(stream, held):
    came = stream.recv(262144)
    if not came:
        raise ConnectionError("the connection ended")
    held += came
    found, place = [], 0
    while len(held) - place >= 19:
        length = struct.unpack(">H", held[place + 16:place + 18])[0]
        if len(held) - place < length:
            break
        found.append(held[place:place + length])
        place += length
    return found, held[place:]


def unless_told(found):
    """A NOTIFICATION ends a session."""
    for it in found:
        if it[18] == 3:
            raise ConnectionError(f"a NOTIFICATION {it[19]}/{it[20]}")


def come_up(given, slot):
    """A session that is Established: its stream, and what is held behind the first KEEPALIVE."""
    held, kinds = b"", []
    try:
        stream = connected(given.bgp_port, address(slot))
        stream.sendall(open_of(slot) + KEEPALIVE)
        stream.settimeout(60)
        while 4 not in kinds:
            found, held = messages(stream, held)
            kinds += [it[18] for it in found]
            unless_told(found)
    except OSError as fault:
        raise NotUp(str(fault)) from fault
    return stream, held


def marker(number):
    return b"\x20\xc6\x12" + struct.pack(">H", number & 0xFFFF)


class Good:
    """Both good peers: when each marker was announced, and what the other one saw."""

    def __init__(self):
        self.announced = {}

    def announcer(self, given, shared):
        stream, held = come_up(given, 0)
        for first in range(0, given.routes, 900):
            stream.sendall(update(b"", attributes_of(0, [1]), routes(first, min(900, given.routes - first))))
        place, number, kept, marked = 0, 0, time.time(), time.time()
        while not shared["ends"].value:
            if select.select([stream], [], [], 0.05)[0]:
                found, held = messages(stream, held)
                unless_told(found)
            now = time.time()
            if now - kept > HOLD / 3:
                stream.sendall(KEEPALIVE)
                kept = now
            if shared["rests"].value:
                continue
            block = min(given.flaps, given.routes - place)
            stream.sendall(update(routes(place, block), b"", b""))
            stream.sendall(update(b"", attributes_of(0, [2 + number % 9]), routes(place, block)))
            count(shared, "flaps", block)
            place = (place + block) % given.routes
            if now - marked > 1:
                number, marked = number + 1, now
                self.announced[number] = time.time()
                stream.sendall(update(marker(number - 1), attributes_of(0, [9]), marker(number)))

    def listener(self, given, shared):
        stream, held = come_up(given, 1)
        kept, heard, seen = time.time(), time.time(), max(self.announced, default=0)
        while not shared["ends"].value:
            if select.select([stream], [], [], 0.2)[0]:
                found, held = messages(stream, held)
                now = time.time()
                longest(shared, "silence", now - heard)
                heard = now
                unless_told(found)
                for number in range(seen + 1, max(self.announced, default=0) + 1):
                    if any(marker(number) in it for it in found):
                        longest(shared, "delay", now - self.announced[number])
                        seen = number
            if time.time() - kept > HOLD / 3:
                stream.sendall(KEEPALIVE)
                kept = time.time()


def good_peers(given, shared):
    good = Good()
    both = [threading.Thread(target=keep, args=(work, given, shared), daemon=True) for work in (good.announcer, good.listener)]
    for it in both:
        it.start()
    for it in both:
        it.join()


def bad_peer(given, draw, slot):
    if draw.random() < 0.2:
        stream = connected(given.bgp_port, address(slot))
        stream.sendall(draw.choice([draw.randbytes(60), open_of(slot)[:draw.randrange(1, 37)], message(1, draw.randbytes(20)), KEEPALIVE]))
        time.sleep(draw.uniform(0, 5))
        return stream.close()
    stream, _ = come_up(given, slot)
    first = draw.randrange(given.routes)
    stream.sendall(update(b"", attributes_of(slot, []), routes(first, draw.randrange(1, 300))))
    way, ends, kept = draw.randrange(5), time.time() + draw.uniform(1, 40), 0
    while time.time() < ends:
        if way != 0 and time.time() - kept > HOLD / 3:
            stream.sendall(KEEPALIVE)
            kept = time.time()
        if way in (0, 1):
            time.sleep(1)
        elif select.select([stream], [], [], 1)[0] and not stream.recv(262144):
            break
    if way == 2:
        stream.sendall(draw.choice([draw.randbytes(90), update(b"", attributes_of(slot + 1, []), routes(1, 1)), message(2, b"\0\0\0\1")]))
        time.sleep(1)
    if way == 3:
        stream.sendall(message(3, b"\6\2"))
    reset(stream) if draw.random() < 0.5 else stream.close()


def go_on(work, given, shared, seed):
    """One stranger after another, in this place."""
    draw = random.Random(seed)
    while not shared["rests"].value:
        try:
            work(draw)
        except OSError:
            pass
        count(shared, "strangers")
        time.sleep(draw.uniform(0, 3))


def strangers(given, shared, kind):
    if kind == "routers":
        works = [(lambda draw: bad_router(given, draw), f"router {it}") for it in range(given.routers - GOOD_ROUTERS)]
    else:
        works = [(lambda draw, slot=slot: bad_peer(given, draw, slot), f"peer {slot}") for slot in range(2, given.peers)]
    for work, seed in works:
        threading.Thread(target=go_on, args=(work, given, shared, seed), daemon=True).start()
    while not shared["rests"].value:
        time.sleep(0.5)
    time.sleep(1)
    os._exit(0)


# ---------------------------------------------------------------- Programs

def free_port():
    with socket.socket() as it:
        it.bind(("127.0.0.1", 0))
        return it.getsockname()[1]


def begin(given):
    given.cache_port, given.bgp_port = free_port(), free_port()
    write_list(0, given.payloads)
    with open("ovcache.toml", "w") as it:
        it.write(f'listen = "127.0.0.1:{given.cache_port}"\ncsv = "list.csv"\nreread = 1\nsession = "clock"\nfirst = 60\n')
    lines = ["reach 192.0.2.0/24 10", "policy no-invalid state invalid reject ; accept"]
    settings = [f'as = {OWN_AS}', 'identifier = "192.0.2.1"', 'commands = "commands"', f'listen = "127.0.0.1:{given.bgp_port}"',
                f'cache = "127.0.0.1:{given.cache_port}"']
    for slot in range(given.peers):
        lines += [f"peer {slot} {FIRST_AS + slot} 192.0.2.{10 + slot} 192.0.2.1 passive {HOLD} no-invalid all", f"enable {slot}"]
        settings += ["[[peer]]", f"slot = {slot}", f'remote = "{address(slot)}:179"']
    with open("commands", "w") as it:
        it.write("\n".join(lines) + "\n")
    with open("ovbgpd.toml", "w") as it:
        it.write("\n".join(settings) + "\n")
    started = [subprocess.Popen([given.ovcache, "ovcache.toml"]), subprocess.Popen([given.ovbgpd, "ovbgpd.toml"])]
    for port in (given.cache_port, given.bgp_port):
        for _ in range(300):
            try:
                socket.create_connection(("127.0.0.1", port), 1).close()
                break
            except OSError:
                time.sleep(0.1)
    return started


def sample(program):
    """Kilobytes of memory, and seconds of processor time."""
    with open(f"/proc/{program.pid}/status") as it:
        resident = next(int(line.split()[1]) for line in it if line.startswith("VmRSS"))
    with open(f"/proc/{program.pid}/stat") as it:
        fields = it.read().rpartition(")")[2].split()
    return resident, (int(fields[11]) + int(fields[12])) / os.sysconf("SC_CLK_TCK")


def is_flat(samples):
    quarter = len(samples) // 4
    before, behind = max(samples[quarter:2 * quarter]), max(samples[3 * quarter:])
    return behind <= before * 1.1 + 8192


def watch(given, programs, shared, began):
    """Samples each second second, and a list each fifth, until the time is over."""
    taken = [[], []]
    number, at = 0, began
    while time.time() - began < given.seconds and all(it.poll() is None for it in programs):
        if time.time() - at > LIST_SECONDS:
            number, at = number + 1, time.time()
            write_list(number, given.payloads)
            shared["list_at"].value, shared["list"].value = time.time(), number
        for series, program in zip(taken, programs):
            series.append(sample(program))
        if given.samples:
            with open(given.samples, "a") as it:
                it.write(f"{time.time() - began:.0f} {taken[0][-1]} {taken[1][-1]}\n")
        time.sleep(2)
    return taken


def idle(given, programs, shared):
    """What each costs a second where nothing happens but keepalives."""
    shared["rests"].value = 1
    time.sleep(given.settle)
    before = [sample(it) for it in programs]
    time.sleep(given.idle)
    return [(sample(it)[1] - was[1]) / given.idle for it, was in zip(programs, before)]


def told(given, programs, taken, idles, shared):
    faults = []
    for name, program, series, cost in zip(("ovcache", "ovbgpd"), programs, taken, idles):
        resident = [it[0] for it in series]
        quarter = max(1, len(resident) // 4)
        used = series[-1][1] / given.seconds
        print(f"{name}: memory {max(resident[quarter:2 * quarter]) // 1024} MB at most in the second quarter, "
              f"{max(resident[3 * quarter:]) // 1024} MB in the last, {max(resident) // 1024} MB ever; "
              f"{100 * used:.1f}% of a processor, {100 * cost:.2f}% idling")
        if program.poll() is not None:
            faults.append(f"{name} has ended with {program.poll()}")
        if not is_flat(resident):
            faults.append(f"{name}: memory isn't flat")
    value = {name: it.value for name, it in shared.items()}
    print(f"{value['strangers']} strangers, {value['flaps']} routes flapped, {value['list']} lists, {value['lists']} had by good routers, "
          f"{value['otherwise']} of them otherwise; {value['lost']} good sessions lost")
    print(f"the longest silence of a good peer {value['silence']:.1f} s, of a route to it {value['delay']:.1f} s, of a list {value['list_delay']:.1f} s")
    if value["lost"] or value["otherwise"] or not value["lists"] or not value["delay"]:
        faults.append("good sessions fared ill")
    for fault in faults:
        print("WRONG " + fault)
    return 1 if faults else 0


def run(given):
    shared = {name: multiprocessing.Value("l", 0) for name in ("ends", "rests", "lost", "otherwise", "lists", "list", "flaps", "strangers")}
    shared |= {name: multiprocessing.Value("d", 0) for name in ("list_at", "list_delay", "silence", "delay")}
    programs = begin(given)
    shared["list_at"].value = time.time()
    works = [(keep, (good_router, given, shared))] * GOOD_ROUTERS + [(good_peers, (given, shared))]
    works += [(strangers, (given, shared, kind)) for kind in ("routers", "peers")]
    helpers = [multiprocessing.Process(target=work, args=words) for work, words in works]
    for it in helpers:
        it.start()
    try:
        taken = watch(given, programs, shared, time.time())
        idles = idle(given, programs, shared) if all(it.poll() is None for it in programs) else [0, 0]
        status = told(given, programs, taken, idles, shared)
    finally:
        shared["ends"].value = 1
        for it in programs:
            if it.poll() is None:
                it.send_signal(signal.SIGTERM)
        for it in helpers:
            it.join(5)
            if it.is_alive():
                it.terminate()
    return status


def main():
    parser = argparse.ArgumentParser()
    parser.add_argument("ovcache", type=os.path.abspath)
    parser.add_argument("ovbgpd", type=os.path.abspath)
    for name, usual in (("seconds", 3600), ("idle", 30), ("settle", 40), ("routers", 200), ("peers", 32), ("routes", 100_000), ("flaps", 500), ("payloads", 20_000)):
        parser.add_argument(f"--{name}", type=int, default=usual)
    parser.add_argument("--samples", type=os.path.abspath)
    given = parser.parse_args()
    with tempfile.TemporaryDirectory() as folder:
        os.chdir(folder)
        return run(given)


if __name__ == "__main__":
    sys.exit(main())
