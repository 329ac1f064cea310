#!/usr/bin/env python3
"""Writes a script of a capture of 300,000 records of 64 bytes, which eight data sessions read at the end with the options
that are given. Without options nobody reads."""

import sys

for line in (
    ["LUT1.INPA=LUT1.OUT", "LUT1.FUNC=~A", "PCAP.TRIG=LUT1.OUT", "PCAP.ENABLE=ONE", "PCAP.GATE=ONE"]
    + [f"INENC{i}.VAL.{what}" for i in range(1, 5) for what in ("SCALE=0.001", "CAPTURE=Min Max Sum")]
):
    print(f"0 C 1 {line}")
for i in range(1, 5):
    print(f"0 S INENC{i} {i * 123456789}")
if len(sys.argv) > 1:
    for i in range(1, 9):
        print(f"0 D {i} {' '.join(sys.argv[1:])}")
print("0 C 1 *PCAP.ARM=")
print("600000 E")
