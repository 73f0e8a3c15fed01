#!/usr/bin/env python3
"""Writes a script of about 1 MiB: messages that are offered, sent, delivered and polled, one after the other, through
some twenty terms. Each term ends with an offer that is refused and turns to the next one."""
import sys

GREATEST = 1 << 20
TERM = 65_536
lines = [f"log {TERM} 1408 7 0 1 1001 0", "connect", "limit", "send 0", "deliver 0 0 0", "tick 0 0", "reply 1 0"]
size = sum(len(line) + 1 for line in lines)
packet = 2
tail = 0
while True:
    turn = ["offer 0 hex 616263"] if tail % TERM == 0 and tail > 0 else []
    turn += ["offer 0 hex 616263", "send 0", f"deliver {packet} 0 0", "poll 0", "limit"]
    tail += 64
    packet += 1
    if tail % 16_384 == 0:
        turn += ["tick 0 0", f"reply {packet} 0"]
        packet += 1
    size += sum(len(line) + 1 for line in turn)
    if size > GREATEST:
        break
    lines += turn
sys.stdout.write("\n".join(lines) + "\n")
