#!/usr/bin/env python3
"""Plays what GUIDE.md says of FRR and BIRD, from the page itself, over two network namespaces; as root, with Debian's frr,
frr-rpki-rtrlib and bird2: python3 docs/try_peers.py OVCACHE OVBGPD OVCTL

The first peer; Invalid dropped, with a cache beside; the same seen by an operator while it runs; a peer added, a policy changed, a
session cleared; `stop` as FRR hears it; and what FRR and BIRD hold of the cache. It prints a line for each thing that is looked at,
and ends with 1 where one isn't as the page has it."""
import json, os, pathlib, re, signal, subprocess, sys, tempfile, time

OVCACHE, OVBGPD, OVCTL = (os.path.abspath(path) for path in sys.argv[1:4])
GUIDE = pathlib.Path(__file__).with_name("GUIDE.md").read_text()
OURS, PEERS = "kenyodla-ours", "kenyodla-peers"
FRR = "/usr/lib/frr"
failed, running = [], []


def look(what, well, *why):
    print("ok" if well else "WRONG", what, *([] if well else why), flush=True)
    if not well:
        failed.append(what)


def blocks(title):
    """The code blocks of a heading, in order."""
    return re.findall(r"(?m)^ *```\w+\n(.*?)^ *```", GUIDE.split(f"\n## {title}\n")[1].split("\n## ")[0], re.S)


def told(*words, **more):
    return subprocess.run(words, capture_output=True, text=True, timeout=60, **more)


def namespaces():
    drop_namespaces()
    for name in [OURS, PEERS]:
        told("ip", "netns", "add", name, check=True)
        told("ip", "-n", name, "link", "set", "lo", "up", check=True)
    told("ip", "-n", OURS, "link", "add", "ours", "type", "veth", "peer", "name", "theirs", "netns", PEERS, check=True)
    for name, link, address in [(OURS, "ours", "10.99.0.1/24"), (PEERS, "theirs", "10.99.0.11/24")]:
        told("ip", "-n", name, "addr", "add", address, "dev", link, check=True)
        told("ip", "-n", name, "link", "set", link, "up", check=True)


def drop_namespaces():
    for name in [OURS, PEERS]:
        told("ip", "netns", "del", name)


def begin(namespace, *words, **more):
    run = subprocess.Popen(["ip", "netns", "exec", namespace, *words], text=True, **more)
    running.append(run)
    return run


def end(run):
    run.terminate()
    try:
        run.wait(10)
    except subprocess.TimeoutExpired:
        run.kill()


class Frr:
    """bgpd of FRR, with the page's frr.conf and what is put behind it."""

    def __init__(self, folder, conf, more=""):
        self.folder = folder / "frr"
        self.folder.mkdir(exist_ok=True)
        (self.folder / "log").unlink(missing_ok=True)
        (self.folder / "frr.conf").write_text(conf + more)
        os.chmod(folder, 0o755)
        os.chmod(self.folder, 0o777)
        own = ["--vty_socket", str(self.folder), "-z", str(self.folder / "zserv"), "-f", str(self.folder / "frr.conf")]
        own += ["-S", "--log", f"file:{self.folder}/log", "--log-level", "info", "-i", str(self.folder / "bgpd.pid"), "-M", "rpki"]
        quiet = {"stdout": subprocess.DEVNULL, "stderr": subprocess.DEVNULL}
        self.run = begin(PEERS, f"{FRR}/bgpd", *own, **quiet)

    def ask(self, line):
        return told("ip", "netns", "exec", PEERS, "vtysh", "--vty_socket", str(self.folder), "-c", line).stdout

    def log(self):
        path = self.folder / "log"
        return path.read_text() if path.exists() else ""

    def end(self):
        end(self.run)


def comes(test, seconds=40):
    ends = time.time() + seconds
    while time.time() < ends:
        if test():
            return True
        time.sleep(0.3)
    return False


def rib(text):
    return text.split("status")[-1] if "status" in text else text


def first_peer(folder):
    settings, commands, conf, _, table = blocks("The first peer")
    (folder / "settings.toml").write_text(settings)
    (folder / "commands").write_text(commands)
    frr = Frr(folder, conf)
    run = begin(OURS, OVBGPD, "settings.toml", "600", cwd=folder, stdout=subprocess.PIPE)
    look("FRR's log says Up", comes(lambda: "ADJCHANGE: neighbor 10.99.0.1(Unknown) in vrf default Up" in frr.log()), frr.log()[-400:])
    best = frr.ask("show bgp ipv4 unicast")
    look("FRR has our network", re.search(r"198\.51\.100\.0/24 +10\.99\.0\.1 .*65000 i", best), best)
    out, _ = run.communicate(timeout=120)
    look("the best routes of the first peer", out == table, out)
    frr.end()
    return settings, conf


def ctl(folder, line):
    ran = told("ip", "netns", "exec", OURS, OVCTL, "control", *([line] if ";" in line else line.split()), cwd=folder)
    return ran.returncode, ran.stdout


def cached(folder):
    """The page's list, served by its sample's settings on the port that the page has."""
    (folder / "payloads.csv").write_text(blocks("Drop Invalid")[1])
    (folder / "cache.toml").write_text(
        'listen = "127.0.0.1:8282"\nsession = "clock"\nother_session = "reset"\nrefresh = 60\nretry = 10\nexpire = 7200\n'
        'reread = 5\ncsv = "payloads.csv"\nlog = true\nfirst = 60\nidle = 7200\nstatus = 60\n'
    )
    return begin(OURS, OVCACHE, "cache.toml", cwd=folder, stdout=open(folder / "cache.log", "w"))


def drop_invalid(folder, settings, conf):
    commands, _, table = blocks("Drop Invalid")[:3]
    (folder / "settings.toml").write_text('cache = "127.0.0.1:8282"\n' + settings)
    cache = cached(folder)
    look("the cache serves", comes(lambda: "list loaded: serial 1" in (folder / "cache.log").read_text()), (folder / "cache.log").read_text())
    for lines, wanted in [(commands, table), (commands.replace("no-invalid all", "all all"), "10.65.1.0/24 0 Invalid 100")]:
        (folder / "commands").write_text(lines)
        run = begin(OURS, OVBGPD, "settings.toml", "600", cwd=folder, stdout=subprocess.PIPE)
        comes(lambda: "payloads 3" in ctl(folder, "show cache")[1])
        frr = Frr(folder, conf)
        out, _ = run.communicate(timeout=120)
        look("Invalid is dropped" if wanted == table else "Invalid is there without a policy", wanted in out and (wanted != table or out == table), out)
        frr.end()
    return cache, commands


def while_it_runs(folder, conf, commands):
    (folder / "commands").write_text(commands)
    run = begin(OURS, OVBGPD, "settings.toml", cwd=folder, stdout=subprocess.PIPE)
    frr = Frr(folder, conf)
    up = comes(lambda: "0 Established" in ctl(folder, "show sessions")[1])
    look("an operator sees the session", up, ctl(folder, "show sessions"))
    comes(lambda: "203.0.113.0/25 0 Valid 200" in ctl(folder, "show rib")[1])
    look("and its routes", "203.0.113.0/25 0 Valid 200" in ctl(folder, "show rib")[1], ctl(folder, "show rib"))
    look("the Invalid one is there as it came", "10.65.1.0/24" in ctl(folder, "show in 0")[1], ctl(folder, "show in 0"))
    for line in blocks("Ask while it runs")[0].splitlines():
        words = re.sub(r"^ovctl \S+ ", "", line).strip("'")
        status, answer = ctl(folder, words)
        look(f"ovctl {words}", status == 0 and answer.startswith(("ok", "0 ")), status, answer)
    status, answer = ctl(folder, "policy no-invalid accept")
    look("another policy lets Invalid in", comes(lambda: "10.65.1.0/24 0 Invalid 100" in ctl(folder, "show rib")[1], 10), ctl(folder, "show rib"))
    ctl(folder, "network 192.0.2.0/24")
    look("FRR is told of a new network", comes(lambda: "192.0.2.0/24" in frr.ask("show bgp ipv4 unicast"), 20), frr.ask("show bgp ipv4 unicast"))
    look("FRR's session stood", frr.log().count("ADJCHANGE") == 1, frr.log()[-400:])
    status, answer = ctl(folder, "stop")
    look("stop is answered", answer == "ok\n", answer)
    run.communicate(timeout=60)
    look("and ends with 0", run.returncode == 0, run.returncode)
    heard = frr.ask("show bgp neighbors 10.99.0.1")
    look("FRR heard an administrative shutdown", "Administrative Shutdown" in heard, heard[-1200:])
    frr.end()


def routers(folder, conf):
    """What FRR and BIRD hold of a cache on the address that their lines have."""
    told("ip", "-n", OURS, "addr", "add", "192.0.2.53/32", "dev", "lo", check=True)
    told("ip", "-n", PEERS, "route", "add", "192.0.2.53/32", "via", "10.99.0.1", check=True)
    toml = (folder / "cache.toml").read_text().replace("127.0.0.1:8282", "192.0.2.53:8282")
    (folder / "routers.toml").write_text(toml)
    begin(OURS, OVCACHE, "routers.toml", cwd=folder, stdout=open(folder / "routers.log", "w"))
    comes(lambda: "listens at" in (folder / "routers.log").read_text())
    lines = blocks("The first cache")
    bird = next(block for block in lines if "roa4 table" in block)
    rpki = next(block for block in lines if "rpki cache" in block).replace("cache tcp", "cache")
    (folder / "bird.conf").write_text("log stderr all;\nrouter id 10.99.0.11;\nprotocol device {}\n" + bird)
    begin(PEERS, "bird", "-f", "-c", "bird.conf", "-s", "bird.ctl", cwd=folder, stderr=open(folder / "bird.log", "w"))
    frr = Frr(folder, conf, re.sub(r"(?m)^  ", "", rpki))
    count = lambda: told("birdc", "-s", "bird.ctl", "show route table r4 count", cwd=folder).stdout
    well = comes(lambda: re.search(r"^3 of 3", count(), re.M))
    look("BIRD holds the three payloads", well, count(), (folder / "bird.log").read_text()[-800:])
    held = lambda: frr.ask("show rpki prefix-table")
    look("FRR holds the three payloads", comes(lambda: "IPv4 prefixes: 3" in held() or held().count("65") >= 3), held())
    frr.end()


with tempfile.TemporaryDirectory() as name:
    folder = pathlib.Path(name)
    namespaces()
    try:
        settings, conf = first_peer(folder)
        cache, commands = drop_invalid(folder, settings, conf)
        while_it_runs(folder, conf, commands)
        end(cache)
        routers(folder, conf)
    finally:
        for run in running:
            if run.poll() is None:
                run.kill()
        drop_namespaces()
print(len(failed), "failed")
sys.exit(1 if failed else 0)
