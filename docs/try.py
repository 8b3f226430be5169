#!/usr/bin/env python3
"""Tries what the pages say, at the top of the repository, by unproved builds: python3 docs/try.py [quick]

Each page, heading, script and contract that a page names is there; the pages have 32,000 words at most; the man pages have no
warnings; and, unless `quick` stands behind it: each command and policy of GUIDE.md is answered `ok`, the scripts of OVPLAY.md as
it says, and the samples of packaging/ serve. The last line counts what failed."""
import glob, pathlib, re, shutil, subprocess, sys, tempfile

PAGES = sorted(glob.glob("docs/*.md")) + ["README.md", "CHANGELOG.md", "challenges/README.md"]
failed = []


def text(page):
    return pathlib.Path(page).read_text()


def fail(*words):
    failed.append(words)
    print(*words)


def headings(page):
    return re.findall(r"^#+ (.*)$", text(page), re.M) + re.findall(r"\*\*([^*]+?)\.?\*\*", text(page))


def links():
    pages = {pathlib.Path(p).name: headings(p) for p in PAGES}
    for page in PAGES:
        for name in re.findall(r"\b([A-Z]+\.md)", text(page)):
            if name not in pages:
                fail(page, "names", name, "which isn't there")
        for name, title in re.findall(r'\b([A-Z]+)(?:\.md)?, "([A-Z][^"]+)"', text(page)):
            if f"{name}.md" in pages and not any(title.replace(" ..", "") in h for h in pages[f"{name}.md"]):
                fail(page, "names", name, title, "which has no such heading")


def size():
    count = sum(len(text(page).split()) for page in glob.glob("docs/*.md") + ["README.md"])
    if count > 32000:
        fail("the pages have", count, "words")


def names():
    """Each name in code type of the pages on contracts stands in a crate, or is a script."""
    words = {pathlib.Path(f).stem for f in glob.glob("crates/*/proofs/*.antt")}
    for f in glob.glob("crates/*/src/**/*.rt", recursive=True) + glob.glob("crates/*/specs/**/*.antt", recursive=True):
        words |= set(re.findall(r"[A-Za-z_][A-Za-z_0-9]*", text(f)))
        words.add(pathlib.Path(f).stem)
    words |= {pathlib.Path(f).stem for f in glob.glob("crates/play_scripts/data/*.in")}
    pages = ["THEOREMS", "MODEL", "ARCHITECTURE", "INCIDENTS", "CHALLENGES", "GLOSSARY", "PERFORMANCE", "PROTOCOL"]
    for page in ["README.md"] + [f"docs/{page}.md" for page in pages]:
        for name in set(re.findall(r"`([A-Za-z_]+(?:::[A-Za-z_]+)*)`", text(page))):
            if name.split("::")[-1] not in words:
                fail(page, "names", name, "which isn't there")
    for name in set(re.findall(r"`([a-z_0-9]+_[a-z_0-9]+)`", text("docs/OVPLAY.md"))):
        if not pathlib.Path(f"crates/play_scripts/data/{name}.in").exists():
            fail("docs/OVPLAY.md names the script", name, "which isn't there")


def man():
    for page in glob.glob("packaging/*.[18]"):
        told = subprocess.run(["groff", "-man", "-ww", "-Tutf8", "-z", page], capture_output=True, text=True).stderr
        if told:
            fail(page, told)


def block(page, begin):
    found = re.search(r"```text\n(" + re.escape(begin) + r".*?)```", text(page), re.S)
    return found.group(1)


def tried(crate, *words):
    run = subprocess.run(["rt", "try", "--seconds", "300", *words], cwd=f"crates/{crate}", capture_output=True, text=True)
    return run.stdout, run.stderr


def first_script():
    """The commented script up to its second `show rib`, with what OVPLAY.md has one put behind it, and what is answered then; and
    with the cache of that page in the place of the script's own."""
    lines = text("crates/ovplay/stdin").splitlines()
    shows = [k for k, line in enumerate(lines) if line == "show rib"]
    begin = lines[: shows[1] + 1]
    table = re.findall(r"(?m)^\| `((?:tick|rtake|show)[^`]*)` \| (.*?) \|", text("docs/OVPLAY.md").split("## Lines")[0])
    later = [answer for _, told in table for answer in re.findall(r"`([^`]*)`", told)]
    own = [k for k, line in enumerate(lines) if line.startswith("rbytes")]
    cache = block("docs/OVPLAY.md", "cache 7 3600").splitlines()
    # A Cache Response, the payload of the page's list, an End of Data (RFC 8210 section 5).
    handed = "0103000700000008" "0104000000000014" "011018000A0000000000FDEA" "01070007000000180000000100000E100000025800001C20"
    other = lines[: own[0]] + cache + ["rbytes " + handed, "show rib"]
    return (begin + [line for line, _ in table], later), (other, ["out " + handed, "ok", "10.0.1.0/24 0 Invalid 100", "end"])


def commands():
    guide = text("docs/GUIDE.md")
    blocks = re.findall(r"```text\n(reach [^`]*)```", guide)
    policies = [p for p in re.findall(r"`(policy [a-z][^`]*)`", guide)]
    cases = {f"commands_{k}": b for k, b in enumerate(blocks)}
    cases["policies"] = "\n".join(policies) + "\n"
    cases = {k: "speaker 65000 10.99.0.1 cache\n" + b for k, b in cases.items()}
    cases["cache"] = block("docs/OVPLAY.md", "cache 7 3600")
    cases["list"] = "cache 7 3600 600 7200\nload\n" + block("docs/OVPLAY.md", "ASN") + "end\n"
    want = {k: ["ok"] * len(b.splitlines()) for k, b in cases.items()}
    want["list"] = ["ok", "ok serial 1 rows 3 skipped 1"]
    want["cache"] = ["ok", "ok serial 1 rows 1 skipped 0", "client 0", "ok", "out 0103"]
    behind = dict(zip(["later", "other"], first_script()))
    cases |= {k: "\n".join(lines) + "\n" for k, (lines, _) in behind.items()}
    with tempfile.TemporaryDirectory() as folder:
        for name, script in cases.items():
            pathlib.Path(folder, name).write_text(script)
        answers, _ = tried("ovplay", "--cases", folder)
    told = dict(part.split("\n", 1) for part in re.split(r"(?m)^== ", answers)[1:])
    for name, wanted in want.items():
        have = told.get(name, "nothing").splitlines()
        have = [line for line in have if not line.startswith(("case=", "cases="))]
        if [h[: len(w)] for h, w in zip(have, wanted)] != wanted or len(have) != len(wanted):
            fail("ovplay answers", name, have)
    for name, (_, wanted) in behind.items():
        have = [line for line in told.get(name, "nothing").splitlines() if not line.startswith(("case=", "cases="))]
        if have[-len(wanted) :] != wanted:
            fail("ovplay answers", name, have[-len(wanted) :])


def samples():
    with tempfile.TemporaryDirectory() as folder:
        for name in ["ovcache.toml", "ovbgpd.toml"]:
            told = text(f"packaging/{name}").replace("/var/lib/kenyodla/", "")
            told = re.sub(r"(?m)^listen = .*", 'listen = "127.0.0.1:0"', told)
            pathlib.Path(folder, name).write_text(re.sub(r"(?m)^control = .*", 'control = "socket"', told))
        shutil.copy("packaging/ovbgpd.commands", folder)
        shutil.copy("crates/ovcache/data/payloads.csv", folder)
        cache, _ = tried("ovcache", "--data", f"ovcache.toml={folder}/ovcache.toml", "--data", f"payloads.csv={folder}/payloads.csv", "--", "ovcache.toml", "3")
        bgp, _ = tried("ovbgpd", "--data", f"ovbgpd.toml={folder}/ovbgpd.toml", "--data", f"ovbgpd.commands={folder}/ovbgpd.commands", "--", "ovbgpd.toml", "3")
    if "list loaded: serial 1, payloads 2" not in cache:
        fail("ovcache says", cache[-300:])
    if "198.51.100.0/24 local NotFound 4294967296" not in bgp:
        fail("ovbgpd says", bgp[-300:])


for part in [links, size, names, man] + ([] if "quick" in sys.argv else [commands, samples]):
    part()
print(len(failed), "failed")
sys.exit(1 if failed else 0)
