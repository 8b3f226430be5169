#!/usr/bin/env python3
"""Each request of ovplay for memory refused, whoever makes it: the speaker, the cache, or what plays the script.

    refused_anywhere.py OVPLAY SCRIPT [--from N] [--step N] [--most N] [--word WORD]

OVPLAY is built by `rt try`; WORD is what it is called with, if anything. gdb has the Nth call for memory, of the system's heap itself,
answer that there is none. A request that isn't the speaker's or the cache's ends the program with status 2, behind answers that are as
they were told; any other leaves status 0, and want of memory is told once at most. Ends with how often each came, and with status 0
where nothing else did.
"""
import argparse
import os
import re
import subprocess
import sys
import tempfile

import scripts

SCRIPT = """set pagination off
set confirm off
set width 0
handle SIGSEGV nostop noprint pass
break rattle_alloc
break rattle_realloc
commands 1-2
silent
continue
end
python
class Request(gdb.Breakpoint):
    left = %d

    def stop(self):
        Request.left -= 1
        return Request.left == 0

gdb.execute("delete")
for name in ("rattle_alloc", "rattle_realloc"):
    Request("*(char *)" + name)
gdb.execute("run %s < %s > %s 2> %s")
if Request.left == 0:
    gdb.execute("set $rax = 0")
    gdb.execute("set $rip = *(long *)$rsp")
    gdb.execute("set $rsp = $rsp + 8")
    gdb.execute("delete")
    gdb.execute("continue")
print("LEFT %%d STATUS %%s" %% (Request.left, gdb.parse_and_eval("$_exitcode")))
end
"""


def refused(given, folder, nth):
    """What is answered with the nth request refused, the status, and whether there was such a request."""
    with open(f"{folder}/gdb", "w") as it:
        it.write(SCRIPT % (nth, given.word, given.script, f"{folder}/out", f"{folder}/err"))
    ended = subprocess.run(["gdb", "-nx", "-batch", "-x", f"{folder}/gdb", given.ovplay], capture_output=True, text=True,
                           env={**os.environ, "ASAN_OPTIONS": "detect_leaks=0"})
    found = re.search(r"LEFT (-?\d+) STATUS (\S+)", ended.stdout)
    with open(f"{folder}/out", encoding="latin-1") as it:
        answers = it.read()
    return answers, found and found[2], bool(found) and int(found[1]) <= 0


def main():
    parser = argparse.ArgumentParser()
    parser.add_argument("ovplay", type=os.path.abspath)
    parser.add_argument("script", type=os.path.abspath)
    for name, usual in (("from", 1), ("step", 1), ("most", 100_000)):
        parser.add_argument(f"--{name}", type=int, default=usual, dest=name if name != "from" else "first")
    parser.add_argument("--word", default="")
    given = parser.parse_args()
    counts, wrong = {"status 2": 0, "a want told": 0, "nothing shows": 0}, 0
    with tempfile.TemporaryDirectory() as folder:
        told, _, _ = refused(given, folder, 1 << 60)
        for nth in range(given.first, given.first + given.step * given.most, given.step):
            answers, status, was_made = refused(given, folder, nth)
            if not was_made:
                break
            wants = scripts.wants(answers)
            if status == "2" and told.startswith(answers):
                counts["status 2"] += 1
            elif status == "0" and len(wants) == 1:
                counts["a want told"] += 1
            elif status == "0" and answers == told:
                counts["nothing shows"] += 1
            else:
                wrong += 1
                print(f"request {nth}: status {status}, {len(wants)} wants", flush=True)
    print(", ".join(f"{name} {times}" for name, times in counts.items()) + f"; {wrong} wrong")
    return 1 if wrong or not counts["status 2"] else 0


if __name__ == "__main__":
    sys.exit(main())
