#!/usr/bin/env python3
"""tests/fvecs.py: files of vectors for the program `fvecs`, and a listing of them that is made apart from it.

    fvecs.py lab            three rides, as examples/lab.fvecs has them
    fvecs.py sample         the program's stored input: vectors of many lengths, the last one cut
    fvecs.py many N         a file of N vectors, 0 to 9 elements each
    fvecs.py list < FILE    what `fvecs` is to print for a file
"""
import random
import struct
import sys

# heart rates of three rides, one for each ten seconds
LAB = [[92.0, 95.0, 101.5, 118.0, 126.5, 131.0], [88.0, 90.5, 97.0, 112.0, 120.0, 125.5], [95.0, 99.0, 104.5, 110.0]]


def vector(elements):
    return struct.pack("<I%df" % len(elements), len(elements), *elements)


def random_vector(rng, count):
    return struct.pack("<I", count) + rng.randbytes(4 * count)


def sample():
    """Few elements and many, of any bits; the last vector one byte short."""
    rng = random.Random(1)
    counts = [0, 1, 2, 6, 0, 0, 300, 16383, 1, 10000, 7]
    return b"".join(map(vector, LAB)) + b"".join(random_vector(rng, n) for n in counts)[:-1]


def many(count):
    rng = random.Random(count)
    return b"".join(random_vector(rng, rng.randrange(10)) for _ in range(count))


def listing(file):
    place, number = 0, 1
    while place < len(file):
        head = file[place : place + 4]
        count = int.from_bytes(head, "little")
        if len(head) == 4 and count > 65536:
            yield "%d\tR\t9\n" % number
            return
        body = file[place + 4 : place + 4 + 4 * count]
        if len(head) < 4 or len(body) < 4 * count:
            yield "%d\tR\t19\t%d\n" % (number, place)
            return
        yield "%d\tV\t%d\t%s\n" % (number, count, body.hex())
        place, number = place + 4 + 4 * count, number + 1


def main(words):
    out = sys.stdout.buffer
    if words == ["lab"]:
        out.write(b"".join(map(vector, LAB)))
    elif words == ["sample"]:
        out.write(sample())
    elif len(words) == 2 and words[0] == "many":
        out.write(many(int(words[1])))
    elif words == ["list"]:
        for line in listing(sys.stdin.buffer.read()):
            out.write(line.encode())
    else:
        sys.exit(__doc__)


main(sys.argv[1:])
