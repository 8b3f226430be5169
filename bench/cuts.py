#!/usr/bin/env python3
"""Every message and PDU of the scripts cut at each octet.

    cuts.py OVPLAY [--each N] [--jobs N] [--only TEXT] [--seed TEXT]

OVPLAY is the built program. Each case of each script of play_scripts is played with each line of octets cut behind its first
octet, with each cut behind its second, and so on to its longest: the first piece is answered by `ok`, and the second as the
whole was. Besides, N (20) places of each case are drawn where a line is cut and the rest never comes: what the tables show and
what is handed out then, and behind the loss of the connection, is what is shown and handed out where only the messages that
have come whole were handed in. Places in messages with a faulty header, which is answered before the message is whole, are
passed over there. Ends with how many plays there were, and with status 0 where none was answered otherwise.
"""
import argparse
import concurrent.futures
import os
import random
import re
import sys

import scripts

LINE = re.compile(r"(bytes \d+|rbytes|cbytes \d+) ((?:[0-9A-Fa-f]{2})+)$")
RESET_QUERY = "0102000000000008"


# ---------------------------------------------------------------- Followed by the rest

def with_lines_cut(script, place):
    """The script with each line of octets cut there, and the numbers of the lines whose answer comes twice."""
    found, twice = [], []
    for number, line in enumerate(script):
        parts = LINE.match(line)
        if parts and len(parts[2]) > 2 * place:
            found += [f"{parts[1]} {parts[2][:2 * place]}", f"{parts[1]} {parts[2][2 * place:]}"]
            twice.append(number)
        else:
            found.append(line)
    return found, twice


def answers_by_line(script, answers):
    """The answers of each line: one, but for tables and lists."""
    found, place, is_list = [], 0, False
    lines = answers.split("\n")[:-1]
    for line in script:
        if is_list and line != "end" or line == "load":
            is_list = True
            found.append([])
            continue
        is_list = False
        end = place + 1
        if line.startswith("show ") and place < len(lines) and not lines[place].startswith("refused"):
            end = lines.index("end", place) + 1
        found.append(lines[place:end])
        place = end
    return found


def octets_in(line):
    parts = LINE.match(line)
    return len(parts[2]) // 2 if parts else 0


def is_cut_well(ovplay, script, told, place):
    cut, twice = with_lines_cut(script, place)
    wanted = []
    for number, answer in enumerate(told):
        wanted += answer if number not in twice else [answer[0] if answer[0].startswith("refused") else "ok", *answer]
    answers, _ = scripts.play(ovplay, cut)
    return answers == "".join(line + "\n" for line in wanted)


# ---------------------------------------------------------------- Followed by silence, and by a loss

def lengths(is_bgp):
    return (19, lambda it: int.from_bytes(it[16:18], "big")) if is_bgp else (8, lambda it: int.from_bytes(it[4:8], "big"))


def is_lawful(header, is_bgp):
    if is_bgp:
        length, kind = int.from_bytes(header[16:18], "big"), header[18]
        least = {1: 29, 2: 23, 3: 21, 4: 19, 5: 23}.get(kind, 4097)
        return header[:16] == b"\xff" * 16 and least <= length <= (least if kind in (4, 5) else 4096)
    length = {0: 12, 1: 12, 2: 8, 3: 8, 4: 20, 6: 32, 7: 24, 8: 8}.get(header[1])
    told = int.from_bytes(header[4:8], "big")
    return header[0] == 1 and (told == length if length else header[1] in (9, 10) and 32 <= told <= 4096)


def whole_part(stream, is_bgp):
    """How many of the octets are in whole items, and whether what is behind them has no fault that shows already."""
    head, length_of = lengths(is_bgp)
    place = 0
    while len(stream) - place >= head:
        header = stream[place:place + head]
        if not is_lawful(header, is_bgp):
            return place, False
        if len(stream) - place < length_of(header):
            break
        place += length_of(header)
    return place, True


def ends_connection(line, words):
    """Whether the line ends or begins the connection that these words are for."""
    starts = {"bytes": ("up", "fail", "drop"), "rbytes": ("rup", "rfail"), "cbytes": ("cup", "cdown", "cache")}[words[0]]
    given = line.split(" ")
    return given[0] in starts and (words[0] != "bytes" or given[1:2] == words[1:2])


def held_before(script, number, words):
    """The octets of the connection's stream up to a line."""
    held = b""
    for line in script[:number]:
        parts = LINE.match(line)
        if parts and parts[1].split(" ") == words:
            held += bytes.fromhex(parts[2])
        elif ends_connection(line, words):
            held = b""
    return held


def probes(words):
    if words[0] == "cbytes":
        key = words[1]
        return [f"ctake {key} 65536", f"cdown {key}", "cup", f"cbytes {key} {RESET_QUERY}", f"ctake {key} 65536"]
    tables = ["show sessions", "show rib", "show payloads"]
    if words[0] == "rbytes":
        return ["rtake 65536", *tables, "rfail", *tables]
    slot = words[1]
    return [f"take {slot} 65536", *tables, f"show in {slot}", f"fail {slot}", *tables]


def is_silent_well(ovplay, script, number, place):
    """Whether octets that are no whole message change nothing; none where that can't be said here."""
    parts = LINE.match(script[number])
    words, octets = parts[1].split(" "), bytes.fromhex(parts[2])
    is_bgp = words[0] == "bytes"
    held = held_before(script, number, words)
    whole, goes_on = whole_part(held + octets[:place], is_bgp)
    if not goes_on or whole < len(held) and whole_part(held, is_bgp)[0] != whole:
        return None
    first = octets[:max(0, whole - len(held))]
    asked = probes(words)
    with_whole = script[:number] + ([f"{parts[1]} {first.hex().upper()}"] if first else []) + asked
    with_piece = script[:number] + [f"{parts[1]} {octets[:place].hex().upper()}"] + asked
    wanted = answers_by_line(with_whole, scripts.play(ovplay, with_whole)[0])[-len(asked):]
    return answers_by_line(with_piece, scripts.play(ovplay, with_piece)[0])[-len(asked):] == wanted


# ---------------------------------------------------------------- All

def pieces_of(held, octets, is_bgp):
    """The octets, cut behind each message that ends among them, and what is held behind them; none where a header has a fault."""
    head, length_of = lengths(is_bgp)
    pieces, place = [], 0
    while held is not None and len(held) + len(octets) - place >= head:
        whole = held + octets[place:]
        if not is_lawful(whole[:head], is_bgp):
            held = None
        elif len(whole) < length_of(whole[:head]):
            break
        else:
            end = place + length_of(whole[:head]) - len(held)
            pieces.append(octets[place:end])
            held, place = b"", end
    if place < len(octets):
        pieces.append(octets[place:])
        held = None if held is None else held + octets[place:]
    return pieces, held


def with_one_a_line(script):
    """The script with one message or PDU in each line: one of several would be answered before the others have come."""
    found, held = [], {}
    for line in script:
        parts = LINE.match(line)
        if parts:
            pieces, held[parts[1]] = pieces_of(held.get(parts[1], b""), bytes.fromhex(parts[2]), parts[1].startswith("bytes"))
            found += [f"{parts[1]} {piece.hex().upper()}" for piece in pieces]
            continue
        held = {stream: it for stream, it in held.items() if not ends_connection(line, stream.split(" "))}
        found.append(line)
    return found


def play_case(given, case):
    """How many plays there were, and what was wrong."""
    name, script, _ = case
    script, answers = scripts.answered(given.ovplay, with_one_a_line(script))
    told = answers_by_line(script, answers)
    longest = max(map(octets_in, script), default=0)
    faults = [f"{name}: cut at {place}" for place in range(1, longest) if not is_cut_well(given.ovplay, script, told, place)]
    plays = max(0, longest - 1)
    draw = random.Random(f"{given.seed} {name}")
    places = [(number, place) for number, line in enumerate(script) for place in range(1, octets_in(line))]
    for number, place in draw.sample(places, min(given.each, len(places))):
        found = is_silent_well(given.ovplay, script, number, place)
        plays += found is not None
        if found is False:
            faults.append(f"{name}: line {number + 1} cut at {place}, and no rest")
    return plays, faults


def main():
    parser = argparse.ArgumentParser()
    parser.add_argument("ovplay", type=os.path.abspath)
    parser.add_argument("--each", type=int, default=20)
    parser.add_argument("--jobs", type=int, default=2)
    parser.add_argument("--only", default="")
    parser.add_argument("--seed", default="2026")
    given = parser.parse_args()
    cases = [case for case in scripts.cases() if given.only in case[0]]
    total, wrong = 0, 0
    with concurrent.futures.ThreadPoolExecutor(given.jobs) as pool:
        for plays, faults in pool.map(lambda case: play_case(given, case), cases):
            total += plays
            wrong += len(faults)
            for fault in faults[:3]:
                print(fault, flush=True)
    print(f"{len(cases)} cases, {total} plays, {wrong} answered otherwise")
    return 1 if wrong else 0


if __name__ == "__main__":
    sys.exit(main())
