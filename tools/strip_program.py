#!/usr/bin/env python3
"""Writes a program without what is never read when it runs: its symbols and its table of sections.

    tools/strip_program.py PROGRAM STRIPPED

The program is an ELF file of 64 bits. What is kept depends on the program alone, so two that were
built alike are stripped alike, whatever tools a machine has.
"""
import struct
import sys

HEADER = struct.Struct("<16sHHIQQQIHHHHHH")
SEGMENT = struct.Struct("<IIQQQQQQ")


def stripped(program):
    fields = list(HEADER.unpack_from(program))
    if fields[0][:6] != b"\x7fELF\x02\x01":
        raise ValueError("no ELF file of 64 bits")
    begin, size, count = fields[5], fields[9], fields[10]
    end = begin + size * count
    for number in range(count):
        segment = SEGMENT.unpack_from(program, begin + size * number)
        offset, length = segment[2], segment[5]
        end = max(end, offset + length)
    fields[6] = fields[12] = fields[13] = 0         # where the table of sections stands, its length, its names
    return HEADER.pack(*fields) + program[HEADER.size:end]


def main():
    source, target = sys.argv[1:]
    with open(source, "rb") as file:
        program = file.read()
    with open(target, "wb") as file:
        file.write(stripped(program))


if __name__ == "__main__":
    main()
