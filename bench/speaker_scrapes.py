#!/usr/bin/env python3
"""Scrapes a running ovbgpd over loopback, and looks at its log.

    speaker_scrapes.py PROGRAM

begins PROGRAM (an ovbgpd) on settings of its own, with a peer that refuses connections, one that comes and a cache that answers
late; asks for its figures, commands it, and says what was wrong. Where promtool is installed it has to find no fault in the figures.
"""
import http.client
import os
import re
import shutil
import socket
import struct
import subprocess
import sys
import tempfile
import threading
import time

faults = []
log = []


def expect(what, is_so):
    print(('ok' if is_so else 'WRONG') + ': ' + what)
    if not is_so:
        faults.append(what)


def figures_at(address):
    connection = http.client.HTTPConnection(*address, timeout=10)
    connection.request('GET', '/metrics')
    response = connection.getresponse()
    text = response.read().decode()
    expect('200 and the type of the text', response.status == 200 and response.getheader('Content-Type', '').startswith('text/plain; version=0.0.4'))
    return text, dict(line.rsplit(' ', 1) for line in text.splitlines() if line and not line.startswith('#'))


def commanded(path, line):
    with socket.socket(socket.AF_UNIX) as operator:
        operator.connect(path)
        operator.settimeout(10)
        operator.sendall(line.encode() + b'\n')
        return operator.recv(65536).decode()


def until(what, seconds, is_so):
    begin = time.time()
    while time.time() - begin < seconds:
        if is_so():
            break
        time.sleep(0.1)
    expect('%s, in %.1f seconds' % (what, time.time() - begin), is_so())


def message(kind, body=b''):
    return b'\xff' * 16 + struct.pack('>HB', 19 + len(body), kind) + body


# With four-octet AS numbers.
OPEN = message(1, struct.pack('>BHHIB', 4, 65002, 90, 0xC0000202, 8) + struct.pack('>BBBBI', 2, 6, 65, 4, 65002))


def cache(listener, wait):
    """A cache of one payload, which answers after so long."""
    with listener.accept()[0] as router:
        router.recv(500)
        time.sleep(wait)
        router.sendall(struct.pack('>BBHI', 1, 3, 7, 8) + struct.pack('>BBHIBBBBII', 1, 4, 0, 20, 1, 8, 24, 0, 0x0A000000, 65002)
                       + struct.pack('>BBHIIIII', 1, 7, 7, 24, 1, 3600, 600, 7200))
        time.sleep(60)


def state_of(figures):
    return {state: figures['kenyodla_sessions{state="%s"}' % state] for state in ['Idle', 'Connect', 'Active', 'OpenSent', 'OpenConfirm', 'Established']}


def drive(folder, listen, metrics):
    control = os.path.join(folder, 'control')
    text, figures = figures_at(metrics)
    if shutil.which('promtool'):
        checked = subprocess.run(['promtool', 'check', 'metrics'], input=text, text=True, capture_output=True)
        expect('promtool finds no fault: ' + checked.stdout + checked.stderr, checked.returncode == 0 and not checked.stdout + checked.stderr)
    expect('peers wait for the cache, ' + str(state_of(figures)), figures['kenyodla_sessions{state="Idle"}'] == '2' and figures['kenyodla_payloads'] == '0')
    until('they are enabled behind its payloads', 10, lambda: figures_at(metrics)[1]['kenyodla_sessions{state="Idle"}'] != '2')
    expect('the cache is synced', figures_at(metrics)[1]['kenyodla_cache_session{state="Synced"}'] == '1')
    until('that is in the log', 2, lambda: any('operator: enable 0: ok' in line for line in log) and any('operator: enable 1: ok' in line for line in log))
    with socket.create_connection(listen, 5) as peer:
        peer.settimeout(10)
        peer.sendall(OPEN)
        peer.recv(500)
        peer.sendall(message(4))
        until('a session is established', 10, lambda: figures_at(metrics)[1]['kenyodla_sessions{state="Established"}'] == '1')
        peer.sendall(message(3, bytes([6, 2])))
        until('its NOTIFICATION is counted', 10, lambda: figures_at(metrics)[1]['kenyodla_notifications_received_total{code="6"}'] == '1')
    expect('octets came and went', int(figures_at(metrics)[1]['kenyodla_octets_total{direction="in"}']) > 60)
    expect('a command is answered', commanded(control, 'network 10.0.0.0/8').startswith('ok'))
    expect('and one that is refused', commanded(control, 'disable 9').startswith('refused 40'))
    expect('a peer is added', commanded(control, 'peer 5 65005 192.0.2.5 192.0.2.1 active 90 all all').startswith('ok'))
    commanded(control, 'show peers')
    until('they are in the log', 2, lambda: all(any(told in line for line in log) for told in ['operator: network 10.0.0.0/8: ok', 'operator: disable 9: refused 40', 'operator: peer 5 65005']))
    expect('tables are not', not any('show peers' in line for line in log))
    until('the peer is told by its address', 2, lambda: any('peer 5 192.0.2.5:179' in line for line in log))
    expect('a control octet is written by its number', commanded(control, 'net\x1bwork').startswith('bad line'))
    until('that too', 2, lambda: any('operator: net\\x1bwork: bad line' in line for line in log))
    time.sleep(20)
    failed = [line for line in log if 'peer 0' in line]
    expect('a peer that refuses fills no log: %d lines' % len(failed), len(failed) < 8)
    for line in log:
        print('   ', line)


def main():
    with tempfile.TemporaryDirectory() as folder, socket.create_server(('127.0.0.1', 0)) as listener:
        threading.Thread(target=cache, args=(listener, 3), daemon=True).start()
        with socket.create_server(('127.0.0.3', 0)) as free:
            refusing = free.getsockname()[1]
        with open(os.path.join(folder, 'commands'), 'w') as file:
            file.write('peer 0 65001 192.0.2.3 192.0.2.1 active 90 all all\npeer 1 65002 192.0.2.4 192.0.2.1 passive 90 all all\nenable 0\nenable 1\n')
        with open(os.path.join(folder, 'settings.toml'), 'w') as file:
            file.write('as = 65000\nidentifier = "192.0.2.1"\ncommands = "commands"\nlisten = "127.0.0.2:0"\nmetrics = "127.0.0.1:0"\ncontrol = "control"\nlog = true\nwait_for_cache = 30\n')
            file.write('cache = "127.0.0.1:%d"\n[[peer]]\nslot = 0\nremote = "127.0.0.3:%d"\n[[peer]]\nslot = 1\nremote = "127.0.0.1:179"\n' % (listener.getsockname()[1], refusing))
        program = subprocess.Popen([os.path.abspath(sys.argv[1]), 'settings.toml'], cwd=folder, stdout=subprocess.PIPE, text=True)
        try:
            at = {}
            while len(at) < 2:
                line = program.stdout.readline()
                log.append(line.rstrip())
                if told := re.search(r' (listens|metrics) at (127\.0\.0\.\d):(\d+)', line):
                    at[told[1]] = (told[2], int(told[3]))
            threading.Thread(target=lambda: [log.append(line.rstrip()) for line in program.stdout], daemon=True).start()
            drive(folder, at['listens'], at['metrics'])
        finally:
            program.kill()
    sys.exit(1 if faults else 0)


main()
