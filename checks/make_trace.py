#!/usr/bin/env python3
"""Makes a trace with frames of given lengths, however large, in no time: their bytes are 0, and no disk holds them.

    python3 make_trace.py FILE COUNT LENGTH [COUNT LENGTH]..

writes COUNT frames of LENGTH bytes each, and then those of the next pair. All are of the time 0, in microseconds and
little-endian, as the program writes them.
"""
import struct
import sys


def main(name, numbers):
    with open(name, "wb") as file:
        file.write(struct.pack("<IHHIIII", 0xA1B2C3D4, 2, 4, 0, 0, 262144, 1))
        for count, length in zip(numbers[::2], numbers[1::2]):
            for _ in range(count):
                file.write(struct.pack("<IIII", 0, 0, length, length))
                file.seek(length, 1)
        file.truncate()


if __name__ == "__main__":
    main(sys.argv[1], [int(word) for word in sys.argv[2:]])
