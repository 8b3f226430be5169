#!/usr/bin/env python3
"""Scrapes a running ovcache over loopback.

    scrapes.py PROGRAM

begins PROGRAM (an ovcache) on a list and settings of its own, asks for its figures as scrapers do and as they don't, and says
what was wrong. Where promtool is installed it has to find no fault in the figures.
"""
import http.client
import os
import re
import shutil
import socket
import subprocess
import sys
import tempfile
import time

LIST = 'ASN,IP Prefix,Max Length,Trust Anchor\nAS65002,10.0.0.0/16,24,ta\nAS65002,10.1.0.0/16,24,ta\n'
faults = []


def expect(what, is_so):
    print(('ok' if is_so else 'WRONG') + ': ' + what)
    if not is_so:
        faults.append(what)


def asked(address, octets, wait=15):
    """All that comes where these octets are sent, and how many seconds it took."""
    begin = time.time()
    came = b''
    with socket.create_connection(address, wait) as scraper:
        scraper.settimeout(wait)
        try:
            scraper.sendall(octets)
            while piece := scraper.recv(65536):
                came += piece
        except (ConnectionError, socket.timeout):
            pass
    return came, time.time() - begin


def figures_at(address):
    connection = http.client.HTTPConnection(*address, timeout=10)
    connection.request('GET', '/metrics')
    response = connection.getresponse()
    text = response.read().decode()
    expect('200 and the type of the text', response.status == 200 and response.getheader('Content-Type', '').startswith('text/plain; version=0.0.4'))
    return text, dict(line.rsplit(' ', 1) for line in text.splitlines() if line and not line.startswith('#'))


def with_a_router(listen, metrics):
    with socket.create_connection(listen, 5) as router:
        router.sendall(bytes([1, 2, 0, 0, 0, 0, 0, 8]))
        router.settimeout(5)
        heard = b''
        while len(heard) < 72:
            heard += router.recv(500)
        time.sleep(0.3)
        _, figures = figures_at(metrics)
        expect('a router is current', figures['rtr_clients'] == '1' and figures['kenyodla_routers{state="current"}'] == '1')
        expect('its octets are counted', figures['kenyodla_octets_total{direction="in"}'] == '8' and figures['kenyodla_octets_total{direction="out"}'] == '72')
    time.sleep(0.3)
    _, figures = figures_at(metrics)
    expect('it has gone', figures['rtr_clients'] == '0' and figures['kenyodla_connections_lost_total'] == '1')


def outcomes(metrics, seconds):
    """How often each outcome came in so many seconds, and the serial behind them."""
    _, before = figures_at(metrics)
    time.sleep(seconds)
    _, behind = figures_at(metrics)
    names = {name: f'kenyodla_rereads_total{{outcome="{name}"}}' for name in ('taken', 'same', 'unchanged', 'refused')}
    return {name: int(behind[at]) - int(before[at]) for name, at in names.items()} | {'serial': int(behind['kenyodla_serial'])}


def touch(path):
    os.utime(path, (1_700_000_000, 1_700_000_000))


def replace(path):
    with open(path + '.new', 'w') as file:
        file.write(LIST.replace('AS65002,10.1', 'AS65003,10.1'))
    touch(path + '.new')
    os.rename(path + '.new', path)


def with_a_file(path, metrics):
    """What is done to the list's file, and what follows in eight seconds, of which it rests for the last."""
    for what, do, wanted, serial in [
        ('an unchanged file is not read', lambda path: None, {'unchanged'}, 1),
        ('one that was touched is', touch, {'same', 'unchanged'}, 1),
        ('one that was replaced is, of the same size and time', replace, {'taken', 'same', 'unchanged'}, 2),
        ('which is not read then', lambda path: None, {'unchanged'}, 2),
    ]:
        size = os.stat(path).st_size
        do(path)
        led = outcomes(metrics, 8)
        expect(f'{what}: {led}', {name for name in led if name != 'serial' and led[name]} == wanted and led['serial'] == serial and led['taken'] <= 1 and os.stat(path).st_size == size)


def drive(folder, listen, metrics):
    text, figures = figures_at(metrics)
    expect('two payloads under serial 1 of session 7', figures['rpki_vrps{ip_version="ipv4"}'] == '2' and figures['kenyodla_serial'] == '1' and figures['kenyodla_session_id'] == '7')
    expect('the age of the list', int(figures['kenyodla_list_written_seconds']) < 60 and int(figures['kenyodla_list_read_seconds']) < 60)
    if shutil.which('promtool'):
        checked = subprocess.run(['promtool', 'check', 'metrics'], input=text, text=True, capture_output=True)
        expect('promtool finds no fault: ' + checked.stdout + checked.stderr, checked.returncode == 0 and not checked.stdout + checked.stderr)
    with_a_router(listen, metrics)
    for what, octets, status in [
        ('another target', b'GET / HTTP/1.1\r\n\r\n', b'404'),
        ('another method', b'POST /metrics HTTP/1.1\r\n\r\n', b'405'),
        ('no request', b'\x01\x02\r\n\r\n', b'400'),
        ('a head without an end', b'GET /metrics HTTP/1.1\r\nA: ' + b'a' * 5000, b'431'),
    ]:
        came, _ = asked(metrics, octets)
        expect(what + ' is answered ' + status.decode(), came.startswith(b'HTTP/1.1 ' + status))
    stalled = [socket.create_connection(metrics, 5) for _ in range(16)]
    for scraper in stalled:
        scraper.sendall(b'GET /metr')
    came, seconds = asked(metrics, b'GET /metrics HTTP/1.1\r\n\r\n', 30)
    expect('behind 16 that stall one is answered in %.1f seconds' % seconds, came.startswith(b'HTTP/1.1 200') and seconds < 13)
    stalled[0].settimeout(5)
    expect('one that stalls is told 408', stalled[0].recv(500).startswith(b'HTTP/1.1 408'))
    with_a_file(os.path.join(folder, 'list.csv'), metrics)
    with open(os.path.join(folder, 'list.csv'), 'w') as file:
        file.write('no list')
    time.sleep(2.5)
    _, figures = figures_at(metrics)
    expect('refused readings are counted', int(figures['kenyodla_rereads_total{outcome="refused"}']) >= 1)
    expect('what was served is served on', figures['rpki_vrps{ip_version="ipv4"}'] == '2')


def main():
    with tempfile.TemporaryDirectory() as folder:
        with open(os.path.join(folder, 'list.csv'), 'w') as file:
            file.write(LIST)
        with open(os.path.join(folder, 'settings.toml'), 'w') as file:
            file.write('listen = "127.0.0.1:0"\nmetrics = "127.0.0.1:0"\nsession = 7\nreread = 1\nlog = true\ncsv = "list.csv"\n')
        program = subprocess.Popen([os.path.abspath(sys.argv[1]), 'settings.toml'], cwd=folder, stdout=subprocess.PIPE, text=True)
        try:
            at = {}
            while len(at) < 2:
                if told := re.search(r' (listens|metrics) at 127\.0\.0\.1:(\d+)', program.stdout.readline()):
                    at[told[1]] = ('127.0.0.1', int(told[2]))
            drive(folder, at['listens'], at['metrics'])
        finally:
            program.kill()
    sys.exit(1 if faults else 0)


main()
