#!/usr/bin/env python3
"""routine.py FOLDER MARKS INSTRUCTION CYCLES: a routine that is accepted, written to FOLDER/image and FOLDER/ticket.
The instruction, given in hexadecimal with its cycles, goes on to the next, again and again; an RTS stands at the end;
each has a mark."""
import sys
from struct import pack

folder, count, code, cycles = sys.argv[1], int(sys.argv[2]), bytes.fromhex(sys.argv[3]), int(sys.argv[4])
image = code * (count - 1) + b"\x39"


def cost(i):
    return cycles * (count - 1 - i) + 5


ticket = pack(">BHHBHHBHHBHI", 1, 0x8000, len(image), 2, 0x40, 1, 3, 0x1F0, 5, 4, 0x8000, cost(0))
ticket += b"".join(pack(">BHIHH", 5, 0x8000 + i * len(code), cost(i), 0, 0) for i in range(count)) + b"\0"
with open(folder + "/image", "wb") as f:
    f.write(image)
with open(folder + "/ticket", "wb") as f:
    f.write(ticket)
