#!/usr/bin/env python3
"""Starts `PROGRAM serve` on two free ports and tells how fast it is: idle, asked by one session and by eight, and read by one and by eight.

    examples/rates.py PROGRAM
"""
import os
import socket
import subprocess
import sys
import threading
import time

query, answer = b"LUT1.OUT?\n", b"OK =0\n"


def free_port():
    with socket.socket() as one:
        one.bind(("127.0.0.1", 0))
        return one.getsockname()[1]


def connect(port):
    while True:
        try:
            return socket.create_connection(("127.0.0.1", port))
        except ConnectionRefusedError:
            time.sleep(0.01)


def at_once(work, items):
    """Does the work on all items at once, and says how long that took."""
    threads = [threading.Thread(target=work, args=(item,)) for item in items]
    start = time.monotonic()
    for thread in threads:
        thread.start()
    for thread in threads:
        thread.join()
    return time.monotonic() - start


def ask_many(session):
    sender = threading.Thread(target=session.sendall, args=(query * 50_000,))
    sender.start()
    left = len(answer) * 50_000
    while left > 0:
        left -= len(session.recv(1 << 16))
    sender.join()


def read_all(reader):
    while reader.recv(1 << 20):
        pass


def idle_share(process):
    def spent():
        words = open(f"/proc/{process.pid}/stat").read().rsplit(")", 1)[1].split()
        return (int(words[11]) + int(words[12])) / os.sysconf("SC_CLK_TCK")
    before = spent()
    time.sleep(5)
    return (spent() - before) / 5


def fill(control):
    """Captures until the store is full, and then stops the clock, so that the box has nothing to do."""
    file = control.makefile("rwb")

    def ask(line):
        file.write(line + b"\n")
        file.flush()
        return file.readline()
    for line in [b"CLOCK1.PERIOD.RAW=250", b"CLOCK1.ENABLE=ONE", b"PCAP.TRIG=CLOCK1.OUT", b"PCAP.ENABLE=ONE",
                 *[b"COUNTER%d.OUT.CAPTURE=Min Max Sum" % i for i in range(1, 9)],
                 *[b"INENC%d.VAL.CAPTURE=Min Max Sum" % i for i in range(1, 5)], b"*PCAP.ARM="]:
        answered = ask(line)
        assert answered == b"OK\n", (line, answered)
    while b"Busy" in ask(b"*PCAP.STATUS?"):
        time.sleep(0.1)
    assert ask(b"CLOCK1.ENABLE=ZERO") == b"OK\n"
    time.sleep(0.5)


def measure(readers):
    ports = free_port(), free_port()
    words = [sys.argv[1], "serve", "--control", str(ports[0]), "--data", str(ports[1])]
    process = subprocess.Popen(words, stdin=subprocess.DEVNULL)
    try:
        sessions = [connect(ports[0]) for _ in range(readers)]
        if readers == 1:
            print(f"idle: {idle_share(process):.1%} of a processor")
        print(f"{readers} sessions: {readers * 50_000 / at_once(ask_many, sessions):,.0f} queries a second")
        records = [connect(ports[1]) for _ in range(readers)]
        for reader in records:
            reader.sendall(b"FRAMED UNSCALED ONE_SHOT\n")
            assert reader.recv(3) == b"OK\n"
        fill(sessions[0])
        print(f"{readers} readers: {readers * 67.1 / at_once(read_all, records):,.0f} MB a second")
    finally:
        process.kill()
        process.wait()


for count in [1, 8]:
    measure(count)
