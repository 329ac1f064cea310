#!/usr/bin/env python3
"""Starts `PROGRAM serve` on two free ports, once for each test below, and talks to it as clients do.

    tests/serve.py PROGRAM

Each test that fails is printed with what was wrong. The last line is "N passed, N failed", and the exit status is 0 where none failed.
tests/run calls it where there is a python3.
"""
import contextlib
import os
import shutil
import signal
import socket
import subprocess
import sys
import threading
import time

program = os.path.abspath(sys.argv[1])
examples = os.path.join(os.path.dirname(os.path.dirname(os.path.abspath(__file__))), "examples")
patience = 20  # seconds for one answer


def free_ports():
    with socket.socket() as one, socket.socket() as two:
        one.bind(("127.0.0.1", 0))
        two.bind(("127.0.0.1", 0))
        return one.getsockname()[1], two.getsockname()[1]


@contextlib.contextmanager
def server(stimulus=b""):
    """The two ports of a server that is up; it is stopped at the end, and must not have ended before."""
    ports = free_ports()
    words = [program, "serve", "--control", str(ports[0]), "--data", str(ports[1])]
    process = subprocess.Popen(words, stdin=subprocess.PIPE, stdout=subprocess.DEVNULL, stderr=subprocess.PIPE)
    try:
        process.stdin.write(stimulus)
        process.stdin.close()
        Client(ports[1]).close()
        yield ports
        assert process.poll() is None, f"the server ended with {process.poll()}"
    finally:
        process.send_signal(signal.SIGKILL)
        process.wait()
        process.stderr.close()


class Client:
    """A connection to a port, once it is open."""

    def __init__(self, port):
        end = time.monotonic() + patience
        while True:
            try:
                self.socket = socket.create_connection(("127.0.0.1", port), timeout=patience)
                break
            except ConnectionRefusedError:
                assert time.monotonic() < end, f"port {port} isn't opened"
                time.sleep(0.01)
        self.file = self.socket.makefile("rb")

    def send(self, data):
        self.socket.sendall(data)

    def line(self):
        return self.file.readline()

    def ask(self, line, wanted=b"OK\n"):
        """Sends a line, which must be answered by exactly these bytes."""
        self.send(line + b"\n")
        got = self.file.read(len(wanted))
        assert got == wanted, f"{line!r}: wanted {wanted!r}, got {got!r}"

    def asked(self, line):
        self.send(line + b"\n")
        return self.line()

    def open_sessions(self):
        """The lines of *WHO? but the last, which is a full stop."""
        lines = [self.asked(b"*WHO?")]
        while lines[-1].startswith(b"!"):
            lines.append(self.line())
        assert lines[-1] == b".\n", f"the sessions are {lines}"
        return lines[:-1]

    def close(self):
        self.file.close()
        self.socket.close()


def until(what, test):
    """Tries until the test holds."""
    end = time.monotonic() + patience
    while not test():
        assert time.monotonic() < end, f"{what} doesn't come"
        time.sleep(0.005)


def whole_acquisition():
    with server() as (control_port, data_port):
        control, data = Client(control_port), Client(data_port)
        for line in [b"CLOCK1.PERIOD=0.005", b"CLOCK1.ENABLE=ONE", b"COUNTER1.TRIG=CLOCK1.OUT", b"PCAP.TRIG=CLOCK1.OUT",
                     b"COUNTER1.OUT.CAPTURE=Value", b"PCAP.ENABLE=ONE"]:
            control.ask(line)
        data.ask(b"ASCII UNSCALED")
        control.ask(b"*PCAP.ARM=")
        wanted = [b"missed: 0\n", b"process: Unscaled\n", b"format: ASCII\n", b"fields:\n", b" COUNTER1.OUT int32 Value\n", b"\n"]
        got = [data.line() for _ in wanted]
        assert got == wanted, f"the header is {got}"
        counts = [int(data.line()) for _ in range(20)]
        assert counts == list(range(counts[0], counts[0] + 20)), f"the counts are {counts}"
        control.ask(b"*PCAP.DISARM=")
        last = data.line()
        number = 20
        while last.startswith(b" "):
            number += 1
            last = data.line()
        assert last == b"END %d Disarmed\n" % number, f"the end is {last!r}, after {number} records"


def sixteen_sessions_at_once():
    with server(b"1 S TTLIN1 1\n") as (control_port, data_port):
        controls = [Client(control_port) for _ in range(8)]
        readers = [Client(data_port) for _ in range(8)]
        for client in controls:
            client.ask(b"*IDN?", b"OK =panda_sim 1.0\n")
        for client in readers:
            client.ask(b"")
        everyone = b"".join(b"!%c %d\n" % (port, n) for port in b"CD" for n in range(1, 9)) + b".\n"
        controls[0].ask(b"*WHO?", everyone)
        until("the input", lambda: controls[0].asked(b"TTLIN1.VAL?") == b"OK =1\n")
        ninth = Client(control_port)
        ninth.send(b"*IDN?\n")
        controls[3].close()
        assert ninth.line() == b"OK =panda_sim 1.0\n", "the ninth client isn't served when another leaves"


def garbage_harms_nobody():
    with server() as (control_port, data_port):
        good = Client(control_port)
        bad = [Client(control_port), Client(control_port), Client(data_port), Client(data_port)]
        for client in bad:
            with contextlib.suppress(OSError):
                client.send(bytes(range(256)) * 1000)
        half = Client(control_port)
        half.send(b"SEQ1.TABLE<\n1 0 0 2")
        good.ask(b"*IDN?", b"OK =panda_sim 1.0\n")
        assert bad[2].line() == b"ERR Not printable\n", "an options line of garbage isn't refused"
        for client in bad + [half]:
            client.close()
        until("the free sessions", lambda: len(good.open_sessions()) == 1)


def client_that_leaves_in_the_middle():
    with server() as (control_port, data_port):
        control = Client(control_port)
        for line in [b"CLOCK1.ENABLE=ONE", b"CLOCK1.PERIOD.RAW=10000", b"PCAP.TRIG=CLOCK1.OUT", b"PCAP.TS_TRIG.CAPTURE=Value",
                     b"PCAP.ENABLE=ONE"]:
            control.ask(line)
        reader = Client(data_port)
        reader.ask(b"UNFRAMED NO_HEADER")
        control.ask(b"*PCAP.ARM=")
        reader.file.read(8)
        reader.close()
        until("the free reader", lambda: control.asked(b"*PCAP.STATUS?").split()[2:3] == [b"0"])
        control.ask(b"*IDN?", b"OK =panda_sim 1.0\n")


def session_number_is_free_again():
    with server() as (control_port, _):
        for _ in range(20):
            client = Client(control_port)
            client.ask(b"*IDN?", b"OK =panda_sim 1.0\n")
            client.close()


def pieces_of_any_size():
    with server() as (control_port, _):
        client = Client(control_port)
        for byte in b"*ECHO hello?\n":
            client.send(bytes([byte]))
            time.sleep(0.001)
        assert client.line() == b"OK =hello\n"
        client.send(b"*ECHO one?\n*ECHO two?\n*ECHO thr")
        assert (client.line(), client.line()) == (b"OK =one\n", b"OK =two\n")
        client.send(b"ee?\n")
        assert client.line() == b"OK =three\n"


def example_of_a_client():
    with server() as ports:
        words = [sys.executable, os.path.join(examples, "client.py"), *map(str, ports)]
        lines = subprocess.run(words, stdout=subprocess.PIPE, timeout=patience, check=True).stdout.splitlines()
        counts = [int(line.split()[0]) for line in lines[:5]]
        assert counts == list(range(counts[0], counts[0] + 5)), f"the counts are {counts}"
        assert lines[-1] == b"END %d Disarmed" % (len(lines) - 1), f"the end is {lines[-1]!r}"


def dialogue_by_nc():
    nc = shutil.which("nc")
    if nc is None:
        return
    with server() as (control_port, _):
        lines = b"LUT1.FUNC=A&B\nLUT1.FUNC?\n*ECHO bye?\n"
        process = subprocess.Popen([nc, "127.0.0.1", str(control_port)], stdin=subprocess.PIPE, stdout=subprocess.PIPE)
        process.stdin.write(lines)
        process.stdin.flush()
        got = [process.stdout.readline() for _ in range(3)]
        process.stdin.close()
        process.kill()
        process.wait()
        assert got == [b"OK\n", b"OK =A&B\n", b"OK =bye\n"], f"got {got}"


def ends_with(words, stimulus, status, text):
    process = subprocess.run([program, *words], input=stimulus, stdout=subprocess.PIPE, stderr=subprocess.PIPE, timeout=patience)
    got = (process.returncode, process.stdout, process.stderr)
    assert got == (status, b"", text), f"{words}: wanted {status} {text!r}, got {got}"


def what_keeps_it_from_starting():
    usage = b"usage: panda_sim replay | make N SEED | bench N SEED | serve [--control PORT] [--data PORT]\n"
    for words in [["--control", "9000", "--data", "9000"], ["--control", "0"], ["--control", "65536"], ["--data", "+1"], ["--data"],
                  ["--help"], ["more"], ["--control", "1", "--control", "2"], ["--other", "1"]]:
        ends_with(["serve", *words], b"", 1, usage)
    ends_with(["serve"], b"1 S TTLIN1 1\n0 S TTLIN1 0\n", 2, b"line 2: tick falls\n")
    ends_with(["serve"], b"# no end\n1 E\n", 2, b"line 2: malformed\n")
    with socket.socket() as taken:
        taken.bind(("127.0.0.1", 0))
        taken.listen()
        ends_with(["serve", "--control", str(taken.getsockname()[1])], b"", 7, b"port fault\n")


tests = [whole_acquisition, sixteen_sessions_at_once, garbage_harms_nobody, client_that_leaves_in_the_middle, session_number_is_free_again,
         pieces_of_any_size, example_of_a_client, dialogue_by_nc, what_keeps_it_from_starting]
wrong = []


def attempt(test):
    try:
        test()
    except Exception as why:  # whatever it is, the test failed
        wrong.append(f"serve.{test.__name__}: {type(why).__name__}: {why}")


threads = [threading.Thread(target=attempt, args=(test,)) for test in tests]
for thread in threads:
    thread.start()
for thread in threads:
    thread.join()
for line in wrong:
    print(line)
print(f"{len(tests) - len(wrong)} passed, {len(wrong)} failed")
sys.exit(1 if wrong else 0)
