#!/usr/bin/env python3
"""Hostile octets: streams drawn at random, and what a reader of its own makes of them.

    hostile_octets.py write FOLDER [--count N] [--each N] [--seed N]

Writes scripts and what is told of them into FOLDER, as play_scripts has them in its data, with a list `scripts` of their
names. Each case is one stream. What is told comes from the readers of this file, which were written after the tables of
faults in docs/PROTOCOL.md (RFC 4271 section 6, RFC 8210 section 5) and know nothing of the program. Of each stream is
told: one answer at most, that of the first fault; where its session stands then; and that the other session is where it
was, with the route that it had. To play them:

    cd FOLDER && PLAY_SCRIPTS > answers; grep -v 'as told' answers

The scripts of play_scripts whose names begin with `hostile_` were written so (docs/GATE.md).
"""
import argparse
import os
import random
import struct

MARKER = b"\xff" * 16


# ---------------------------------------------------------------- BGP: reading

class Skipped(Exception):
    """A stream whose answer holds more than these readers know."""


class Fault(Exception):
    def __init__(self, code, subcode, data=b""):
        self.code, self.subcode, self.data = code, subcode, data


LEAST = {1: 29, 2: 23, 3: 21, 4: 19}
OWN_AS, PEER_AS, OWN_IDENTIFIER = 65000, 65001, 0xC0000201

# code: optional and transitive bit, length, where the table has them
CLASSES = {1: (0x40, 1), 2: (0x40, None), 3: (0x40, 4), 4: (0x80, 4), 5: (0x40, 4), 6: (0x40, 0), 7: (0xC0, 8)}


def header(octets):
    """The type and the length of the message at the front; none where its header isn't there yet."""
    if len(octets) < 19:
        return None
    if octets[:16] != MARKER:
        raise Fault(1, 1)
    length, kind = struct.unpack(">HB", octets[16:19])
    if length < 19 or length > 4096:
        raise Fault(1, 2, octets[16:18])
    if kind == 5:
        # A ROUTE-REFRESH (RFC 2918) is lawful where the speaker takes it, and an unknown type where it doesn't.
        raise Skipped()
    if kind not in LEAST:
        raise Fault(1, 3, octets[18:19])
    if length < LEAST[kind] or (kind == 4 and length != 19):
        raise Fault(1, 2, octets[16:18])
    return kind, length


def read_open(body):
    version, _asn, hold, identifier, count = struct.unpack(">BHHIB", body[:10])
    parameters = body[10:]
    if version != 4:
        raise Fault(2, 1, b"\0\4")
    if count != len(parameters):
        raise Fault(2, 0)
    # What is cut off comes before what isn't known.
    items, place = [], 0
    while place < len(parameters):
        if place + 2 > len(parameters) or place + 2 + parameters[place + 1] > len(parameters):
            raise Fault(2, 0)
        items.append((parameters[place], parameters[place + 2:place + 2 + parameters[place + 1]]))
        place += 2 + parameters[place + 1]
    capabilities = []
    for kind, value in items:
        if kind != 2:
            continue
        at = 0
        while at < len(value):
            if at + 2 > len(value) or at + 2 + value[at + 1] > len(value):
                raise Fault(2, 0)
            capabilities.append((value[at], value[at + 2:at + 2 + value[at + 1]]))
            at += 2 + value[at + 1]
    if any(kind != 2 for kind, _ in items):
        raise Fault(2, 4)
    ases = [value for code, value in capabilities if code == 65 and len(value) == 4]
    if not ases:
        raise Fault(2, 7, struct.pack(">BBI", 65, 4, OWN_AS))
    if struct.unpack(">I", ases[0])[0] != PEER_AS:
        raise Fault(2, 2)
    if identifier in (0, OWN_IDENTIFIER):
        raise Fault(2, 3)
    if hold in (1, 2):
        raise Fault(2, 6)


def read_prefixes(octets):
    place = 0
    while place < len(octets):
        length = octets[place]
        if length > 32 or place + 1 + (length + 7) // 8 > len(octets):
            raise Fault(3, 10)
        place += 1 + (length + 7) // 8


def read_path(value):
    place, segments = 0, []
    while place < len(value):
        if place + 2 > len(value):
            raise Fault(3, 11)
        kind, count = value[place], value[place + 1]
        if kind not in (1, 2) or count == 0 or place + 2 + 4 * count > len(value):
            raise Fault(3, 11)
        ases = struct.unpack(">%dI" % count, value[place + 2:place + 2 + 4 * count])
        if 0 in ases:
            raise Fault(3, 11)
        segments.append((kind, ases))
        place += 2 + 4 * count
    if not segments or segments[0][0] != 2 or segments[0][1][0] != PEER_AS:
        raise Fault(3, 11)


def read_attributes(octets):
    """The codes that have come. The peer is external: of its LOCAL_PREF nothing is examined."""
    came, place = set(), 0
    while place < len(octets):
        if place + 3 > len(octets):
            raise Fault(3, 1)
        flags, code = octets[place], octets[place + 1]
        head = 4 if flags & 0x10 else 3
        if place + head > len(octets):
            raise Fault(3, 1)
        length = int.from_bytes(octets[place + 2:place + head], "big")
        if place + head + length > len(octets):
            raise Fault(3, 1)
        whole = octets[place:place + head + length]
        value = whole[head:]
        place += head + length
        if code in came:
            raise Fault(3, 1)
        came.add(code)
        if code == 5:
            continue
        if code not in CLASSES:
            if not flags & 0x80:
                raise Fault(3, 2, whole)
            continue
        bits, wanted = CLASSES[code]
        if flags & 0xC0 != bits:
            raise Fault(3, 4, whole)
        if wanted is not None and length != wanted:
            raise Fault(3, 5, whole)
        if code == 1 and value[0] > 2:
            raise Fault(3, 6, whole)
        if code == 2:
            read_path(value)
        if code == 3 and (value[0] in (0, 127) or value[0] >= 224):
            raise Fault(3, 8, whole)
    return came


def read_update(body):
    withdrawn = struct.unpack(">H", body[:2])[0]
    if 2 + withdrawn + 2 > len(body):
        raise Fault(3, 1)
    attributes = struct.unpack(">H", body[2 + withdrawn:4 + withdrawn])[0]
    if 4 + withdrawn + attributes > len(body):
        raise Fault(3, 1)
    read_prefixes(body[2:2 + withdrawn])
    came = read_attributes(body[4 + withdrawn:4 + withdrawn + attributes])
    announced = body[4 + withdrawn + attributes:]
    if announced:
        for code in (1, 2, 3):
            if code not in came:
                raise Fault(3, 3, bytes([code]))
    read_prefixes(announced)


def judged(octets, state):
    """Where a session that stands in this state is behind the octets, and what was told on the way."""
    told = b""
    while True:
        try:
            head = header(octets)
            if head is None or len(octets) < head[1]:
                return state, told
            kind, length = head
            body, octets = octets[19:length], octets[length:]
            if kind == 3:
                return "Idle", told
            if state == "OpenSent":
                if kind != 1:
                    raise Fault(5, 0)
                read_open(body)
                state, told = "OpenConfirm", told + MARKER + b"\0\x13\4"
            elif state == "OpenConfirm":
                if kind != 4:
                    raise Fault(5, 0)
                state = "Established"
                # What is announced to it then isn't told here.
                raise Skipped()
            elif kind == 1:
                raise Fault(5, 0)
            elif kind == 2:
                read_update(body)
        except Fault as fault:
            data = fault.data[:4075]
            return "Idle", told + MARKER + struct.pack(">HBBB", 21 + len(data), 3, fault.code, fault.subcode) + data


# ---------------------------------------------------------------- BGP: drawing

def message(kind, body, length=None):
    return MARKER + struct.pack(">HB", 19 + len(body) if length is None else length, kind) + body


def prefix(draw):
    length = draw.randrange(33)
    octets = bytes([10] + [draw.randrange(256) for _ in range(3)])[:(length + 7) // 8]
    return bytes([length]) + octets


def attribute(flags, code, value, extended=False):
    if extended or len(value) > 255:
        return struct.pack(">BBH", flags | 0x10, code, len(value)) + value
    return struct.pack(">BBB", flags, code, len(value)) + value


def lawful_attributes(draw):
    path = [PEER_AS] + [draw.randrange(1, 70000) for _ in range(draw.randrange(4))]
    segments = struct.pack(">BB", 2, len(path)) + b"".join(struct.pack(">I", it) for it in path)
    if draw.random() < 0.2:
        segments += struct.pack(">BBI", 1, 1, draw.randrange(1, 70000))
    found = [
        attribute(0x40, 1, bytes([draw.randrange(3)])),
        attribute(0x40, 2, segments, draw.random() < 0.2),
        attribute(0x40, 3, bytes([192, 0, 2, 11])),
    ]
    if draw.random() < 0.5:
        found.append(attribute(0x80, 4, struct.pack(">I", draw.randrange(1 << 32))))
    if draw.random() < 0.2:
        found.append(attribute(0x40, 5, struct.pack(">I", draw.randrange(1 << 32))))
    if draw.random() < 0.3:
        found.append(attribute(0x40, 6, b""))
    if draw.random() < 0.3:
        found.append(attribute(0xC0, 7, struct.pack(">II", draw.randrange(1, 70000), 0x0A000001)))
    if draw.random() < 0.3:
        found.append(attribute(0xC0, 8, struct.pack(">I", draw.randrange(1 << 32)) * draw.randrange(1, 4)))
    if draw.random() < 0.2:
        found.append(attribute(0xC0, draw.randrange(41, 256), draw.randbytes(draw.randrange(8))))
    draw.shuffle(found)
    return found


def update(withdrawn, attributes, announced):
    return message(2, struct.pack(">H", len(withdrawn)) + withdrawn + struct.pack(">H", len(attributes)) + attributes + announced)


def parts(draw):
    withdrawn = b"".join(prefix(draw) for _ in range(draw.choice([0, 0, 1, 2])))
    announced = b"".join(prefix(draw) for _ in range(draw.choice([0, 1, 1, 2, 3])))
    return withdrawn, lawful_attributes(draw), announced


def lawful_update(draw):
    withdrawn, attributes, announced = parts(draw)
    return update(withdrawn, b"".join(attributes), announced)


def with_octet_changed(draw, octets, first=0):
    place = draw.randrange(first, len(octets))
    changed = draw.choice([octets[place] ^ (1 << draw.randrange(8)), draw.randrange(256), 0, 255])
    return octets[:place] + bytes([changed]) + octets[place + 1:]


def octets_at_random(draw):
    return draw.randbytes(draw.randrange(1, 120))


def body_at_random(draw):
    kind = draw.choice([1, 2, 2, 2, 3, 4, 0, 6, 200])
    body = draw.randbytes(draw.choice([0, 1, 2, 3, 4, 5, 8, 20, 60]))
    if kind == 2 and draw.random() < 0.7:
        body = bytes([0, draw.randrange(3), 0, draw.randrange(24)]) + body
    return message(kind, body, None if draw.random() < 0.8 else draw.randrange(0, 4200))


def update_in_one_octet(draw):
    return with_octet_changed(draw, lawful_update(draw), 16 if draw.random() < 0.9 else 0)


def update_in_one_attribute(draw):
    withdrawn, attributes, announced = parts(draw)
    place = draw.randrange(len(attributes))
    chosen = attributes[place]
    way = draw.randrange(6)
    if way == 0:
        attributes.append(chosen)
    elif way == 1:
        del attributes[place]
    elif way == 2:
        attributes[place] = bytes([draw.randrange(256) & ~0x10 | chosen[0] & 0x10]) + chosen[1:]
    elif way == 3:
        attributes[place] = chosen[:1] + bytes([draw.randrange(256)]) + chosen[2:]
    elif way == 4:
        attributes[place] = with_octet_changed(draw, chosen, 2)
    else:
        attributes[place] = chosen[:draw.randrange(len(chosen))]
    return update(withdrawn, b"".join(attributes), announced)


def lawful_update_and_more(draw):
    return lawful_update(draw) + with_octet_changed(draw, lawful_update(draw), 16)


def lawful_or_changed_open(draw):
    def capability():
        code = draw.choice([1, 2, 64, 65, 65, 65, 70, 71, draw.randrange(256)])
        value = struct.pack(">I", PEER_AS) if code == 65 and draw.random() < 0.8 else draw.randbytes(draw.randrange(6))
        return bytes([code, len(value)]) + value

    listed = []
    for _ in range(draw.choice([0, 1, 1, 1, 2, 3])):
        value = b"".join(capability() for _ in range(draw.choice([0, 1, 1, 2, 3])))
        listed.append(bytes([2 if draw.random() < 0.93 else draw.randrange(256), len(value)]) + value)
    if draw.random() < 0.6:
        listed.append(bytes([2, 6, 65, 4]) + struct.pack(">I", PEER_AS))
    parameters = b"".join(listed)[:250]
    hold = draw.choice([0, 1, 2, 3, 90, 180, 65535])
    identifier = draw.choice([0x0A000001, 0x0A000001, 0x0A000001, 0, OWN_IDENTIFIER])
    count = len(parameters) if draw.random() < 0.9 else draw.randrange(256)
    body = struct.pack(">BHHIB", 4 if draw.random() < 0.95 else draw.randrange(256), 65001, hold, identifier, count) + parameters
    found = message(1, body)
    return found if draw.random() < 0.7 else with_octet_changed(draw, found, 16)


# ---------------------------------------------------------------- RPKI-to-Router: reading

SESSION, SERIAL = 7, 1
LENGTHS = {0: 12, 1: 12, 2: 8, 3: 8, 4: 20, 6: 32, 7: 24, 8: 8}
RESET_QUERY = b"\1\2\0\0\0\0\0\x08"


def serial_query():
    return struct.pack(">BBHII", 1, 1, SESSION, 12, SERIAL)


class Report(Exception):
    """An Error Report of this code that quotes this, and closes; none where it closes without one."""
    def __init__(self, code, quoted=b""):
        self.code, self.quoted = code, quoted


def is_report_length(length):
    return 16 <= length <= 4096


def pdu_header(octets, is_first, may_be_notify):
    """The type and the length of the PDU at the front; none where its header isn't there yet."""
    if len(octets) < 8:
        return None
    version, kind = octets[0], octets[1]
    length = struct.unpack(">I", octets[4:8])[0]
    if kind == 10 and (version != 1 or not is_report_length(length)):
        raise Report(None)
    if version != 1 and not (may_be_notify and kind == 0 and length == 12):
        raise Report(4 if is_first else 8, octets[:8])
    if kind not in LENGTHS and kind not in (9, 10):
        raise Report(5, octets[:8])
    if kind == 9 and not 32 <= length <= 4096 or kind in LENGTHS and length != LENGTHS[kind]:
        raise Report(0, octets[:8])
    return kind, length


def read_payload(pdu):
    length, most = pdu[9], pdu[10]
    address = struct.unpack(">I", pdu[12:16])[0]
    if length > 32 or address & ((1 << (32 - length)) - 1) or not length <= most <= 32:
        raise Report(0, pdu[:32])
    return address, length, most, struct.unpack(">I", pdu[16:20])[0]


def error_report(code, quoted):
    return struct.pack(">BBHII", 1, 10, code, 16 + len(quoted), len(quoted)) + quoted + b"\0\0\0\0"


BASE = {(0x0A000000, 16, 24, 65002)}


def judged_by_client(octets):
    """A client in Synced, with BASE of session 7 and serial 1: its state, what it tells, and what is in force."""
    state, told, base, load, by_serial = "Synced", b"", set(BASE), None, False
    try:
        while True:
            head = pdu_header(octets, False, False)
            if head is None or len(octets) < head[1]:
                return state, told, base
            kind, length = head
            pdu, octets = octets[:length], octets[length:]
            two = struct.unpack(">H", pdu[2:4])[0]
            if kind == 10:
                if state == "Asked" and two == 2:
                    state = "Wait"
                    continue
                if two == 0:
                    base = set()
                raise Report(None)
            payload = read_payload(pdu) if kind == 4 else None
            if kind == 0:
                serial = struct.unpack(">I", pdu[8:12])[0]
                if state == "Synced":
                    if two != SESSION:
                        base = set()
                        raise Report(0, pdu[:32])
                    if serial != SERIAL:
                        state, told, by_serial = "Asked", told + serial_query(), True
            elif kind == 3 and state == "Asked" and by_serial:
                if two != SESSION:
                    base = set()
                    raise Report(0, pdu[:32])
                state, load = "Loading", set(base)
            elif kind == 3 and state == "Asked":
                state, load = "Loading", set()
                raise Skipped()
            elif kind == 8 and state == "Asked" and by_serial:
                told, by_serial = told + RESET_QUERY, False
            elif state == "Loading" and kind == 4:
                if pdu[8] & 1:
                    if payload in load:
                        raise Report(7, pdu[:32])
                    load.add(payload)
                else:
                    if payload not in load:
                        raise Report(6, pdu[:32])
                    load.remove(payload)
            elif state == "Loading" and kind in (6, 9):
                pass
            elif state == "Loading" and kind == 7:
                refresh, retry, expire = struct.unpack(">III", pdu[12:24])
                if two != SESSION:
                    base = set()
                    raise Report(0, pdu[:32])
                if not (1 <= refresh <= 86400 and 1 <= retry <= 7200 and 600 <= expire <= 172800 and expire > refresh and expire > retry):
                    raise Report(0, pdu[:32])
                # A new base with another serial: what comes behind it isn't told here.
                base = load
                if octets:
                    raise Skipped()
                return "Synced", told, base
            else:
                raise Report(0, pdu[:32])
    except Report as report:
        if report.code is None:
            return "Off", told, base
        return "Off", told + error_report(report.code, report.quoted), base


def response(payloads, session=SESSION, serial=SERIAL, intervals=(3600, 600, 7200)):
    found = struct.pack(">BBHI", 1, 3, session, 8)
    for flags, (address, length, most, asn) in payloads:
        found += struct.pack(">BBHIBBBBII", 1, 4, 0, 20, flags, length, most, 0, address, asn)
    return found + struct.pack(">BBHIIIII", 1, 7, session, 24, serial, *intervals)


def judged_by_cache(octets):
    """A cache of session 7 with BASE at serial 1, and a client that has asked nothing yet: what it tells, and whether it
    closes."""
    told, is_first, has_response = b"", True, False
    try:
        while True:
            head = pdu_header(octets, is_first, False)
            if head is None or len(octets) < head[1]:
                return told, False
            kind, length = head
            pdu, octets = octets[:length], octets[length:]
            is_first = False
            if kind == 10:
                raise Report(None)
            if kind == 4:
                read_payload(pdu)
            if kind not in (1, 2) or has_response:
                raise Report(3, pdu[:32])
            if kind == 1 and struct.unpack(">H", pdu[2:4])[0] != SESSION:
                raise Report(0, pdu[:32])
            if kind == 1 and struct.unpack(">I", pdu[8:12])[0] != SERIAL:
                told += b"\1\x08\0\0\0\0\0\x08"
                continue
            # Its response is queued behind the octets of this piece.
            queued = response([] if kind == 1 else [(1, it) for it in sorted(BASE)])
            has_response = True
            if octets:
                raise Skipped()
            return told + queued, False
    except Report as report:
        if report.code is None:
            return told, True
        return told + error_report(report.code, report.quoted), True


# ---------------------------------------------------------------- RPKI-to-Router: drawing

def pdu_for_client(draw):
    notify = struct.pack(">BBHII", 1, 0, SESSION, 12, draw.choice([1, 2, 3]))
    other = (0x0A010000, 16, 16, 65003)
    change = draw.choice([[(1, other)], [(0, next(iter(BASE)))], [(0, next(iter(BASE))), (1, other)], [(1, next(iter(BASE)))], []])
    loads = struct.pack(">BBHII", 1, 0, SESSION, 12, 2) + response(change, serial=2)
    single = draw.choice([
        notify,
        RESET_QUERY,
        serial_query(),
        struct.pack(">BBHI", 1, 3, SESSION, 8),
        response([(1, other)])[8:28],
        response([])[8:],
        struct.pack(">BBHI", 1, 8, 0, 8),
        struct.pack(">BBHI", 1, 6, 0, 32) + bytes(24),
        struct.pack(">BBHI", 1, 9, 0, 40) + bytes(32),
        error_report(draw.randrange(10), b""),
    ])
    way = draw.randrange(6)
    if way == 0:
        return draw.randbytes(draw.randrange(1, 60))
    if way == 1:
        return with_octet_changed(draw, single)
    if way == 2:
        return loads
    if way in (3, 4):
        return with_octet_changed(draw, loads, 12)
    return notify + with_octet_changed(draw, single)


def pdu_for_cache(draw):
    single = draw.choice([RESET_QUERY, RESET_QUERY, serial_query(), serial_query(), struct.pack(">BBHI", 1, 8, 0, 8),
                          response([])[8:], response([(1, next(iter(BASE)))])[8:28], error_report(3, b""),
                          struct.pack(">BBHI", 1, 9, 0, 40) + bytes(32)])
    way = draw.randrange(4)
    if way == 0:
        return draw.randbytes(draw.randrange(1, 60))
    if way == 1:
        return single
    return with_octet_changed(draw, single)


# ---------------------------------------------------------------- Scripts

def hexed(octets):
    return octets.hex().upper()


def out(octets):
    return "out " + (hexed(octets) or "-")


DATA = os.path.join(os.path.dirname(os.path.abspath(__file__)), "../crates/play_scripts/data")


def own_open():
    """The OPEN of the speaker of these scripts, as another script has it."""
    with open(f"{DATA}/first_path.out") as it:
        sent = next(bytes.fromhex(line[4:]) for line in it if line.startswith("out " + "FF" * 16))
    return sent[:int.from_bytes(sent[16:18], "big")]


OWN_OPEN = own_open()
KEEPALIVE = MARKER + b"\0\x13\4"
PEER_OPEN = MARKER + bytes.fromhex("00250104FDE9005A0101010108020641040000FDE9")
OTHER_OPEN = MARKER + bytes.fromhex("00250104FDEA005A0202020208020641040000FDEA")
# 203.0.113.0/24 of the other peer, and the same as it is told to this one: behind our AS, and by our address.
OTHER_ROUTE = MARKER + bytes.fromhex("002F02000000144001010040020602010000FDEA400304C000020C18CB0071")
TOLD_ROUTE = MARKER + bytes.fromhex("003302000000184001010040020A02020000FDE80000FDEA400304C000020118CB0071")
SHOWN_ROUTE = "203.0.113.0/24 4001010040020602010000FDEA400304C000020C"


def beginning():
    """Two peers, and the answers: the lines up to where the first is in OpenSent, and what is drained."""
    lines = [
        ("speaker 65000 192.0.2.1 nocache", "ok"),
        ("reach 192.0.2.0/24 10", "ok"),
        ("peer 0 65001 192.0.2.11 192.0.2.1 passive 180 all all", "ok"),
        ("peer 1 65002 192.0.2.12 192.0.2.1 passive 180 all all", "ok"),
        ("enable 0", "ok"),
        ("enable 1", "ok"),
        ("up 0", "ok"),
        ("up 1", "ok"),
        ("bytes 1 " + hexed(OTHER_OPEN + KEEPALIVE + OTHER_ROUTE), "ok"),
    ]
    return lines


def in_established():
    return beginning() + [
        ("bytes 0 " + hexed(PEER_OPEN + KEEPALIVE), "ok"),
        ("take 0 65536", out(OWN_OPEN + KEEPALIVE + TOLD_ROUTE)),
    ]


def in_open_sent():
    return beginning() + [("take 0 65536", out(OWN_OPEN))]


def of_bgp(begin, state, draw_one, is_cut):
    def case(draw):
        octets = draw_one(draw)
        left, told = judged(octets, state)
        lines = []
        if is_cut and len(octets) > 1:
            place = draw.randrange(1, len(octets))
            lines += [("bytes 0 " + hexed(octets[:place]), "ok"), ("bytes 0 " + hexed(octets[place:]), "ok")]
        else:
            lines.append(("bytes 0 " + hexed(octets), "ok"))
        lines += [
            ("take 0 65536", out(told)),
            ("show sessions", "0 %s\n1 Established\nend" % left),
            ("show in 1", SHOWN_ROUTE + "\nend"),
        ]
        return lines
    return begin, case


def at_client():
    lines = [
        ("speaker 65000 192.0.2.1 cache", "ok"),
        ("reach 192.0.2.0/24 10", "ok"),
        ("peer 1 65002 192.0.2.12 192.0.2.1 passive 180 all all", "ok"),
        ("enable 1", "ok"),
        ("up 1", "ok"),
        ("bytes 1 " + hexed(OTHER_OPEN + KEEPALIVE + OTHER_ROUTE), "ok"),
        ("rup", "ok"),
        ("rtake 4096", out(RESET_QUERY)),
        ("rbytes " + hexed(response([(1, it) for it in sorted(BASE)])), "ok"),
    ]
    return lines


def payload_row(it):
    address, length, most, asn = it
    return "%d.%d.%d.%d/%d-%d AS%d" % (address >> 24, address >> 16 & 255, address >> 8 & 255, address & 255, length, most, asn)


def client_case(draw):
    octets = pdu_for_client(draw)
    state, told, base = judged_by_client(octets)
    return [
        ("rbytes " + hexed(octets), "ok"),
        ("rtake 4096", out(told)),
        ("show sessions", "1 Established\ncache %s\nend" % state),
        ("show payloads", "\n".join([payload_row(it) for it in sorted(base)] + ["end"])),
        ("show in 1", SHOWN_ROUTE + "\nend"),
    ]


def at_cache():
    return [
        ("cache 7 3600 600 7200", "ok"),
        ("load\nASN,IP Prefix,Max Length,Trust Anchor\nAS65002,10.0.0.0/16,24,ta\nend", "ok serial 1 rows 1 skipped 0"),
        ("cup", "client 0"),
        ("cup", "client 1"),
        ("cbytes 1 " + hexed(RESET_QUERY), "ok"),
    ]


def cache_case(draw):
    octets = pdu_for_cache(draw)
    told, is_closed = judged_by_cache(octets)
    # A client that is closed is answered no more; one that isn't is.
    lines = [("cbytes 0 " + hexed(octets), "ok"), ("ctake 0 65536", out(told))]
    if is_closed:
        lines += [("cbytes 0 " + hexed(RESET_QUERY), "ok"), ("ctake 0 65536", "out -")]
    return lines + [("ctake 1 65536", out(response([(1, it) for it in sorted(BASE)])))]


KINDS = {
    "hostile_octets_at_random": (of_bgp(in_established, "Established", octets_at_random, False), 1),
    "hostile_bodies_at_random": (of_bgp(in_established, "Established", body_at_random, False), 2),
    "hostile_updates_with_another_octet": (of_bgp(in_established, "Established", update_in_one_octet, False), 4),
    "hostile_updates_with_another_attribute": (of_bgp(in_established, "Established", update_in_one_attribute, False), 4),
    "hostile_updates_behind_others_in_two_pieces": (of_bgp(in_established, "Established", lawful_update_and_more, True), 2),
    "hostile_opens": (of_bgp(in_open_sent, "OpenSent", lawful_or_changed_open, False), 3),
    "hostile_pdus_at_a_router": ((at_client, client_case), 3),
    "hostile_pdus_at_a_cache": ((at_cache, cache_case), 2),
}


def drawn_case(case, draw):
    while True:
        try:
            return case(draw)
        except Skipped:
            continue


def write(folder, count, each, seed):
    names = []
    total = sum(weight for _, weight in KINDS.values())
    for kind, ((begin, case), weight) in KINDS.items():
        draw = random.Random(f"{seed} {kind}")
        left = max(1, round(count * weight / total))
        part = 0
        while left:
            part += 1
            name = kind if left <= each and part == 1 else f"{kind}_{part}"
            script, told = ["# Streams that bench/hostile_octets.py drew, and what its readers make of them."], []
            for line, answer in begin():
                script.append(line)
                told.append(answer)
            for number in range(min(left, each)):
                script.append(f"# case: {number + 1}")
                told.append(f"# case: {number + 1}")
                for line, answer in drawn_case(case, draw):
                    script.append(line)
                    told.append(answer)
            left -= min(left, each)
            names.append(name)
            open(f"{folder}/{name}.in", "w").write("\n".join(script) + "\n")
            open(f"{folder}/{name}.out", "w").write("\n".join(told) + "\n")
    open(f"{folder}/scripts", "w").write("\n".join(names) + "\n")
    print(f"{len(names)} scripts")


def main():
    parser = argparse.ArgumentParser()
    parser.add_argument("command", choices=["write"])
    parser.add_argument("folder")
    parser.add_argument("--count", type=int, default=100_000)
    parser.add_argument("--each", type=int, default=150)
    parser.add_argument("--seed", default="2026")
    given = parser.parse_args()
    write(given.folder, given.count, given.each, given.seed)


if __name__ == "__main__":
    main()
