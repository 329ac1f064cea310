#!/usr/bin/env python3
"""Writes a script of 50,000 settings, each followed by its query, of ten fields in turn."""

SETTINGS = [
    ("LUT1.INPA", "TTLIN1.VAL"),
    ("LUT8.FUNC", "A&~(B|C)"),
    ("PULSE4.DELAY", "0.001"),
    ("PCAP.TRIG_EDGE", "Either"),
    ("COUNTER8.MAX", "-5"),
    ("SEQ2.REPEATS", "1000"),
    ("PCOMP2.DIR", "Negative"),
    ("INENC4.VAL.SCALE", "-0.25"),
    ("LUT1.INPA.DELAY", "7"),
    ("SRGATE2.WHEN_DISABLED", "Keep current output"),
]

for i in range(50_000):
    target, value = SETTINGS[i % len(SETTINGS)]
    print(f"0 C 1 {target}={value}")
    print(f"0 C 1 {target}?")
print("0 E")
