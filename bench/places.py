#!/usr/bin/env python3
"""Where a speaker and a cache ask for memory: the tables of crates/growths/places.md beside the sources, and beside refusals.

    places.py
    places.py GROWTHS [--jobs N] [--only TEXT]

The first compares: each call of a speaker's or a cache's crates that could take memory, by its words, stands in one of the two
tables, and each row has its call. The second has gdb stop `growths`, as `rt try` builds it, at each request that it refuses, over the
cases of its data, and looks which function of ours asked: status 0 where each of the first table did, and no other.
"""
import argparse
import collections
import concurrent.futures
import os
import re
import subprocess
import sys
import tempfile

TOP = os.path.join(os.path.dirname(os.path.abspath(__file__)), "..")
PAGE = f"{TOP}/crates/growths/places.md"

CALLS = (r"Box::new|Rc::new|RcSlice::from_vec|Vec::with_capacity|Vec::from_slice|String::from_str|HeapCircularBuffer::with_capacity"
         r"|\.push(?=\()|\.insert(?=\()|\.entry(?=\()|\.reserve_exact|\.reserve(?=\()|\.extend_from_slice|\.extend(?=\()|\.append(?=\()|\.resize(?=\()"
         r"|\.collect|\.to_vec|vec!\[in|format!\(in|\bset - other")


def crates_below(*names):
    """The crates of the repository on which these stand, with themselves."""
    with open(f"{TOP}/crates.txt") as it:
        stands_on = {line.split(":")[0].split()[0]: line.split(":")[1].split() for line in it if ":" in line and not line.startswith("#")}
    found, left = set(), list(names)
    while left:
        name = left.pop()
        if name in stands_on and name not in found:
            found.add(name)
            left += stands_on[name]
    return sorted(found)


def in_sources():
    """How often each call stands in each function, by crate and file; tests and lists in Global apart."""
    found = collections.Counter()
    for crate in crates_below("speaker", "rtr_cache", "live_book"):
        folder = f"{TOP}/crates/{crate}/src"
        for file in sorted(os.listdir(folder)):
            if not file.endswith(".rt") or file == "tests.rt":
                continue
            function = None
            with open(f"{folder}/{file}") as it:
                text = it.read()
            for line in text.split("\n"):
                line = re.sub(r"//.*", "", line)
                named = re.search(r"\bfn (\w+)", line)
                function = named[1] if named else function
                for call in re.findall(CALLS, line):
                    found[crate, file, function, call] += 1
    return found


def in_page():
    """The calls of the first table, and those of both."""
    asking, all_of, heading = set(), collections.Counter(), 0
    with open(PAGE) as it:
        for line in it:
            heading += line.startswith("## ")
            row = re.fullmatch(r"\| (\w+) \| (\w+\.rt) \| (.*) \|\n", line)
            for function, call, times in re.findall(r"(\w+) `([^`]+)`( \w+)?", row[3]) if row else []:
                all_of[row[1], row[2], function, call] += {"": 1, " twice": 2, " thrice": 3}[times]
                if heading == 0:
                    asking.add((row[1], row[2], function, call))
    return asking, all_of


def compare():
    sources, (_, page) = in_sources(), in_page()
    faults = [f"not in the page: {' '.join(it)}" for it in sources - page] + [f"not in the sources: {' '.join(it)}" for it in page - sources]
    for fault in faults:
        print(fault)
    print(f"{sum(sources.values())} calls, {len(faults)} otherwise in the page")
    return 1 if faults else 0


# What gdb does at each refused request: the names of the functions behind it. The count that is left is the first word of a
# `Refusing` over `Global`, and the second of one over another.
SCRIPT = """set pagination off
set confirm off
set width 0
handle SIGSEGV nostop noprint pass
starti
python
import re
base = int(re.search("0x([0-9a-f]+)", gdb.execute("info proc mappings", to_string=True))[1], 16)
for address, place in %s:
    gdb.execute("break *%%d if *(unsigned long long *)($rdi + %%d) == 1" %% (base + address, place))
end
commands 1-2
silent
backtrace 40
continue
end
continue
"""


def requests_in(program):
    """Where a `Refusing` is asked, over `Global` and over another, and where its count stands."""
    symbols = subprocess.run(["nm", "-C", program], capture_output=True, text=True).stdout
    found = re.findall(r"^(\w+) \w refusing::Refusing::granted::<(.*)>$", symbols, re.MULTILINE)
    return [(int(address, 16), 0 if heap.endswith("Global") else 8) for address, heap in found]


def stacks_of(given, name):
    """The functions of ours behind each refused request of a case, the innermost first: crate and name."""
    data = f"{TOP}/crates/growths/data"
    with tempfile.TemporaryDirectory() as folder:
        with open(f"{folder}/names", "w") as it:
            it.write(name + "\n")
        with open(f"{folder}/script", "w") as it:
            it.write(SCRIPT.replace("starti\n", f"starti {given.word} < {folder}/names > /dev/null\n") % requests_in(given.growths))
        told = subprocess.run(["gdb", "-nx", "-batch", "-x", f"{folder}/script", given.growths], cwd=data, capture_output=True, text=True,
                              env={**os.environ, "ASAN_OPTIONS": "detect_leaks=0"}).stdout
    stacks = []
    for number, crate, function in re.findall(r"^#(\d+) .* in (\w+)::(?:\w+::)*(\w+)(?:::<.*>)? \(", told, re.MULTILINE):
        if number == "0":
            stacks.append([])
        if stacks and crate in OURS:
            stacks[-1].append((crate, function))
    return [it for it in stacks if it]


OURS = set(crates_below("speaker", "rtr_cache", "live_book"))


def seen(given):
    asking, _ = in_page()
    places = {(crate, function) for crate, _, function, _ in asking}
    with open(f"{TOP}/crates/growths/stdin") as it:
        names = [line.strip() for line in it if given.only in line]
    count, behind, others = 0, collections.Counter(), collections.Counter()
    with concurrent.futures.ThreadPoolExecutor(given.jobs) as pool:
        for name, stacks in zip(names, pool.map(lambda name: stacks_of(given, name), names)):
            count += len(stacks)
            for stack in stacks:
                (behind if stack[0] in places else others)[stack[0]] += 1
            print(f"{name}: {len(stacks)} requests refused", flush=True)
    for crate, function in sorted(places - set(behind)):
        print(f"no request refused: {crate} {function}")
    for (crate, function), times in others.items():
        print(f"not in the page: {crate} {function}, {times} times")
    print(f"{count} requests refused at {len(behind)} of {len(places)} functions of the page, {len(others)} elsewhere")
    return 1 if places - set(behind) or others else 0


def main():
    parser = argparse.ArgumentParser()
    parser.add_argument("growths", nargs="?", type=os.path.abspath)
    parser.add_argument("--jobs", type=int, default=1)
    parser.add_argument("--only", default="")
    parser.add_argument("--word", default="", help="what growths is called with")
    given = parser.parse_args()
    return seen(given) if given.growths else compare()


if __name__ == "__main__":
    sys.exit(main())
