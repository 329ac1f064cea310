#!/usr/bin/env python3
"""Counts the pulses of a clock, ten a second, and prints the first five records as they come.

    ./panda_sim serve < /dev/null &
    examples/client.py [CONTROL_PORT DATA_PORT]
"""
import socket
import sys

ports = [int(word) for word in sys.argv[1:3]] or [8888, 8889]
control, data = (socket.create_connection(("127.0.0.1", port)).makefile("rw", newline="\n") for port in ports)


def ask(session, line):
    session.write(line + "\n")
    session.flush()
    answer = session.readline()
    if not answer.startswith("OK"):
        sys.exit(f"{line}: {answer.strip() or 'no answer'}")


for line in ["CLOCK1.PERIOD=0.1", "CLOCK1.ENABLE=ONE", "COUNTER1.TRIG=CLOCK1.OUT", "COUNTER1.OUT.CAPTURE=Value",
             "PCAP.TRIG=CLOCK1.OUT", "PCAP.TS_TRIG.CAPTURE=Value", "PCAP.ENABLE=ONE"]:
    ask(control, line)
ask(data, "ASCII UNSCALED NO_HEADER ONE_SHOT")
ask(control, "*PCAP.ARM=")
for number, record in enumerate(data, 1):
    print(record, end="")
    if number == 5:
        ask(control, "*PCAP.DISARM=")
