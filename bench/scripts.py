"""The scripts of play_scripts for programs of bench: cases, cuts, what is told, and wants of memory in answers."""
import os
import re
import subprocess

DATA = os.path.join(os.path.dirname(os.path.abspath(__file__)), "../crates/play_scripts/data")

CUT, REST = "# cut the next line at each octet", "# the rest comes"

# What a want of memory looks like in an answer: refusals of commands, caches and lists (and 15 and 17, to which no text leads),
# sessions that were closed, and what these, a cache's client or a speaker's cache are told.
WANTS = re.compile(
    r"^refused (?:5|15|16|17|20|21|44|53)\b.*$"
    r"| starved(?: \d+)*(?: cache)?$"
    r"|F{32}0015030608"
    r"|010A0001[0-9A-F]{8}[0-9A-F]*",
    re.MULTILINE,
)


def names():
    """The names of all scripts that are told rightly."""
    with open(f"{DATA}/scripts") as it:
        listed = [line.strip() for line in it if line.strip() and not line.startswith("#")]
    return [name for name in listed if not name.endswith("_is_found")]


def lines_of(path):
    with open(path, encoding="latin-1") as it:
        lines = it.read().split("\n")
    return lines[:-1] if lines[-1] == "" else lines


def parted(lines):
    """The cases of a file, each with the beginning of all."""
    beginning, cases = [], []
    for line in lines:
        if line.startswith("# case"):
            cases.append([])
        elif cases:
            cases[-1].append(line)
        else:
            beginning.append(line)
    return [beginning + case for case in cases] or [beginning]


def cut_at(script, place):
    """The script with so many octets before each cut; place 0 is the middle."""
    found, cuts, held = [], False, None
    for line in script:
        if cuts:
            words, digits = line[:line.rfind(" ") + 1], line[line.rfind(" ") + 1:]
            octets = place or max(1, len(digits) // 4)
            found.append(words + digits[:2 * octets])
            held = words + digits[2 * octets:]
        elif line == REST:
            found.append(held)
        elif line != CUT:
            found.append(line)
        cuts = line == CUT
    return found


def cases():
    """Each case of each script, cut in the middle: its name and number, its lines and what is told, without comments."""
    for name in names():
        scripts, told = parted(lines_of(f"{DATA}/{name}.in")), parted(lines_of(f"{DATA}/{name}.out"))
        for number, (script, answers) in enumerate(zip(scripts, told)):
            yield f"{name}.{number + 1}", plain(cut_at(script, 0)), answers


def plain(script):
    """Without comments and empty lines, but for those of lists."""
    found, is_list = [], False
    for line in script:
        if is_list or line and not line.startswith("#"):
            found.append(line)
        is_list = line == "load" or is_list and line != "end"
    return found


def play(ovplay, script):
    """The answers of ovplay, and its exit status."""
    text = "\n".join(script) + "\n" if script else ""
    ended = subprocess.run([ovplay], input=text, capture_output=True, encoding="latin-1", timeout=600)
    return ended.stdout, ended.returncode


def answered(ovplay, script):
    """The lines that come before a bad one, with their answers."""
    text, status = play(ovplay, script)
    if status == 1:
        told = subprocess.run([ovplay], input="\n".join(script) + "\n", capture_output=True, encoding="latin-1").stderr
        script = script[:int(re.search(r"line (\d+)", told)[1]) - 1]
        while script and "load" in script and script[::-1].index("load") < (script[::-1] + ["end"]).index("end"):
            script = script[:len(script) - 1 - script[::-1].index("load")]
        text, status = play(ovplay, script)
    if status != 0:
        raise SystemExit(f"the script ends with status {status}")
    return script, text


def wants(answers):
    """Each want of memory that is told."""
    return WANTS.findall(answers)
