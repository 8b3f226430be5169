#!/usr/bin/env python3
"""Wrong bodies beside the gate: whether each fits the text, and trying those of a crate.

  challenges/try.py            tells each edit that doesn't fit the text any more, and each crate whose text has changed since TRIED
                               has it tried; ends with 'N passed, M failed'
  challenges/try.py CRATE..    has the prover try the challenges of these crates, tells those that aren't refused, and writes the
                               crates' lines of TRIED: CRATE COMMIT refused=N of=M

Call it at the top of the repository. A try begins with what `rt check` kept of the crate."""
import os, pathlib, re, subprocess, sys

HERE = pathlib.Path(__file__).resolve().parent
TOP = HERE.parent
TRIED = HERE / "TRIED"


def misfit(edit, crate):
    """Why an edit can't be applied to its crate, or None. A later pair of lines applies to what the earlier ones made."""
    texts, path, old, pairs = {}, None, None, 0
    for line in edit.read_text().split("\n"):
        if line.startswith("file: "):
            path = TOP / "crates" / crate / line[len("file: "):].strip()
        elif line.startswith("old: "):
            old = line[len("old: "):]
        elif line.startswith("new:"):
            if not path or not old:
                return "a 'new:' line stands before any 'file:' or 'old:' line"
            if not path.is_file():
                return f"there is no file {path.relative_to(TOP)}"
            text = texts.setdefault(path, path.read_text())
            if text.count(old) != 1:
                return f"an 'old:' text is {text.count(old)} times in {path.relative_to(TOP)}"
            texts[path] = text.replace(old, line[len("new:"):].removeprefix(" "))
            old, pairs = None, pairs + 1
        elif line.strip():
            return f"no line begins as {line.strip()!r} does"
    if not pairs:
        return "it has no 'old:' and 'new:' pair"
    if all(text == path.read_text() for path, text in texts.items()):
        return "it changes nothing"
    return None


def challenges():
    return {it.name: sorted(it.glob("*.edit")) for it in sorted(HERE.iterdir()) if it.is_dir()}


def lines_of_tried():
    if not TRIED.is_file():
        return {}
    return {line.split()[0]: line for line in TRIED.read_text().splitlines() if line and not line.startswith("#")}


def has_changed(crate, commit):
    """Whether the crate's text isn't that of the commit."""
    folders = [f"crates/{crate}/{it}" for it in ("src", "specs", "proofs")]
    return subprocess.run(["git", "diff", "--quiet", commit, "--", *folders], cwd=TOP).returncode != 0


def judge(crate, edits, line):
    """What is wrong with a crate's challenges."""
    faults = [f"{crate}/{edit.name}: {why}" for edit in edits if (why := misfit(edit, crate))]
    found = re.fullmatch(r"\S+ ([0-9a-f]+) refused=(\d+) of=(\d+)", line or "")
    if not found:
        return [*faults, f"{crate}: TRIED has no line of it"]
    commit, refused, of = found[1], int(found[2]), int(found[3])
    if has_changed(crate, commit):
        faults.append(f"{crate}: its text has changed since {commit}: try its challenges again")
    if (refused, of) != (len(edits), len(edits)):
        faults.append(f"{crate}: {refused} of {of} were refused, and it has {len(edits)} challenges")
    return faults


def fit():
    """Tells what doesn't fit, and answers the exit status."""
    all_of, tried = challenges(), lines_of_tried()
    faults = [fault for crate, edits in all_of.items() for fault in judge(crate, edits, tried.get(crate))]
    faults += [f"{crate}: TRIED names it, and it has no challenges" for crate in tried if crate not in all_of]
    for fault in faults:
        print(fault)
    print(f"{sum(len(it) for it in all_of.values())} challenges of {len(all_of)} crates")
    print(f"{len(all_of)} passed, {len(faults)} failed" if not faults else f"0 passed, {len(faults)} failed")
    return 1 if faults else 0


def refusals(crate, edits):
    """Which of the crate's challenges the prover refuses. They lie among its must-fail edits while they are tried."""
    folder = TOP / "crates" / crate / "must-fail"
    folder.mkdir(exist_ok=True)
    lent = [folder / edit.name for edit in edits]
    clash = [it.name for it in lent if it.exists()]
    if clash:
        sys.exit(f"{crate}: both a challenge and an edit of the gate: {clash}")
    for edit, copy in zip(edits, lent):
        copy.write_text(edit.read_text())
    try:
        told = subprocess.run(["rt", "must-fail", crate], cwd=TOP, capture_output=True, text=True).stdout
    finally:
        for copy in lent:
            copy.unlink()
        if not any(folder.iterdir()):
            folder.rmdir()
    said = {}
    for name, words in re.findall(rf"must-fail {crate}/(\S+\.edit): (.*)", told):
        said[name] = words
    return {edit.name: said.get(edit.name, "not tried") for edit in edits}


def try_crate(crate):
    """Tries a crate's challenges, and writes its line."""
    edits = challenges()[crate]
    commit = subprocess.run(["git", "log", "-1", "--format=%h", "--", f"crates/{crate}"], cwd=TOP, capture_output=True, text=True).stdout.strip()
    said = refusals(crate, edits)
    refused = [it for it, words in said.items() if words.startswith("refused, as it must be")]
    for name, words in said.items():
        if name not in refused or "only" in words[:60]:
            print(f"{crate}/{name}: {words}")
    if untried := [name for name, words in said.items() if words == "not tried"]:
        print(f"{crate}: {len(untried)} weren't tried, so its line stays as it is")
        return False
    line = f"{crate} {commit} refused={len(refused)} of={len(edits)}"
    print(line)
    lines = lines_of_tried()
    lines[crate] = line
    head = [it for it in TRIED.read_text().splitlines() if it.startswith("#")] if TRIED.is_file() else []
    TRIED.write_text("\n".join([*head, *(lines[it] for it in sorted(lines))]) + "\n")
    return len(refused) == len(edits)


if __name__ == "__main__":
    if len(sys.argv) == 1:
        sys.exit(fit())
    sys.exit(0 if all([try_crate(crate) for crate in sys.argv[1:]]) else 1)
