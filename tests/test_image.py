"""What an image holds: python3 tests/test_image.py FILE.., archives or programs.

The boards that boot the arbiter are short of read-only memory, so the table of task sets is worked out and not stored: it may not stand in a file, whole or in pieces, neither as data nor
in instructions. A compiler that folds the walk back into constants would cut them into pieces of 4, 8 or 16 bytes and mix these with others, so runs of a few sets are looked for,
stored as bytes or as wider numbers, and counted. For each file the sizes of its code and its read-only data are printed.
"""

import itertools
import random
import struct
import sys
from pathlib import Path

TASKS = 8
RUN = {"B": 4, "H": 2, "I": 2, "Q": 2}  # how many sets in a row are looked for, where each is stored in 1, 2, 4 or 8 bytes
CHANCE = 16  # fewer different runs than this stand there by chance: two small numbers in a row are common in larger files


def table():
    """The masks of all non-empty sets: by size, and within a size by the ascending lists of their tasks."""
    return [sum(1 << t for t in tasks) for size in range(1, TASKS + 1) for tasks in itertools.combinations(range(TASKS), size)]


def stored(sets, width):
    return struct.pack(f"<{len(sets)}{width}", *sets)


def runs_in(data):
    """The runs of the table that stand in the data, of the one width of which most do. Sets of one task are passed over: they are the powers of two, which loops over bits are made with."""
    sets = table()[TASKS:]
    found = {width: [] for width in RUN}
    for width, length in RUN.items():
        for first in range(len(sets) - length + 1):
            run = stored(sets[first : first + length], width)
            if run in data:
                found[width].append(run)
    return max(found.values(), key=len)


def objects(data):
    """The object files of an archive, or the file itself."""
    if not data.startswith(b"!<arch>\n"):
        yield data
        return
    at = 8
    while at < len(data):
        size = int(data[at + 48 : at + 58])
        member = data[at + 60 : at + 60 + size]
        if member.startswith(b"\x7fELF"):
            yield member
        at += 60 + size + size % 2


def sections(elf):
    """Each section's name and size, of a file of 64 bits, lowest byte first."""
    start, size, count, names = struct.unpack_from("<Q", elf, 0x28) + struct.unpack_from("<3H", elf, 0x3A)
    heads = [struct.unpack_from("<IIQQQQ", elf, start + i * size) for i in range(count)]
    text = heads[names][4]
    for name, _, _, _, _, length in heads:
        yield elf[text + name : elf.index(b"\0", text + name)].decode(), length


def size_of(data, prefix):
    return sum(length for elf in objects(data) for name, length in sections(elf) if name.startswith(prefix))


def test_the_test(data):
    """Half of the table, cut into pieces that a compiler could move at once, mixed with others, is noticed."""
    rng = random.Random(1)
    for width, length in RUN.items():
        half = table()[TASKS : len(table()) // 2]
        for piece in (4, 8, 16):
            if piece >= length * struct.calcsize(width):
                whole = stored(half, width)
                pieces = [whole[at : at + piece] for at in range(0, len(whole), piece)] + [rng.randbytes(piece) for _ in half]
                rng.shuffle(pieces)
                if len(runs_in(data + b"".join(pieces))) < CHANCE:
                    sys.exit(f"a table in pieces of {piece} bytes would not be noticed, in numbers of {8 * struct.calcsize(width)} bits")


def main():
    if not sys.argv[1:]:
        sys.exit("usage: python3 tests/test_image.py FILE..")
    for name in sys.argv[1:]:
        try:
            data = Path(name).read_bytes()
            code, constants = size_of(data, ".text"), size_of(data, ".rodata")
        except OSError as fault:
            sys.exit(f"{name}: {fault.strerror}")
        except (struct.error, ValueError, IndexError):
            sys.exit(f"{name}: no whole archive or program of 64 bits")
        if code == 0:
            sys.exit(f"{name}: no code in it")
        runs = runs_in(data)
        if len(runs) >= CHANCE:
            sys.exit(f"{name}: the table of task sets is back, {len(runs)} runs of it, the first three: {', '.join(run.hex(' ') for run in runs[:3])}")
        test_the_test(data)
        print(f"{name}: {code} bytes of code and {constants} of read-only data, without the table of task sets")


if __name__ == "__main__":
    main()
