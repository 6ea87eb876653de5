"""The program `clean` on whole files, every set of the corpus among them, held to the brute search; what it says where it can't read or write or is asked otherwise; and
tools/clean.py over it: python3 tests/test_clean.py target/bin/clean."""

import os
import subprocess
import sys
import tempfile

import brute
from brute import Set, word_bytes, words_in, words_of
from make_corpus import FILES, Dice, damaged_unit_words, large_unclean_lists, mutated, unclean_set, unclean_unit_set
from program_checks import Program, damaged, sized

ROOT = os.path.dirname(os.path.dirname(os.path.abspath(__file__)))

# Desk example a, and example g as it was before its device had to be claimed, with what it is cleaned to.
A = word_bytes(int(word, 16) for word in "10000001 10000001 20000000 30000000 30000001 40000001 40000000 20000000 30000001 30000000 40000000 40000001 5000000C".split())
OLD, NEW = word_bytes([0x10000008, 0x20000000, 0x50000002]), word_bytes([0x20000000, 0x50000001])

# A claim of four units of device 1, which becomes device 0.
OLD_UNITS = word_bytes([0x10000008, 0x10000005, 0x20000000, 0x30030001, 0x40000001, 0x50000005])
NEW_UNITS = word_bytes([0x10000005, 0x20000000, 0x30030000, 0x40000000, 0x50000004])


def corpus_sets():
    """The sets of the corpus' cases, each once, as files' bytes."""
    with open(FILES[0], "rb") as file:
        data = file.read()
    words = [int.from_bytes(data[i : i + 4], "little") for i in range(0, len(data), 4)]
    sets, at = {}, 1
    for _ in range(words[0]):
        count, _, _, calls = words[at : at + 4]
        sets[word_bytes(words[at + 4 : at + 4 + count])] = True
        at += 4 + count + 4 * calls
    assert at == len(words)
    return list(sets)


def files():
    """Sets of every kind, damaged ones, and files that are none, each with what must be written for it."""
    dice = Dice(2027)
    lists = [words_of(*unclean_set(dice, 200)) for _ in range(200)] + large_unclean_lists()
    lists += [mutated(dice, words_of(*unclean_set(dice, 60))) for _ in range(200)]
    lists += [words_of(*unclean_unit_set(dice, 120)) for _ in range(100)] + [damaged_unit_words(dice) for _ in range(100)]
    whole = [OLD] + corpus_sets() + [word_bytes(words) for words in lists] + sized() + list(damaged(dice))
    return [(data, brute.cleaned_file(data)) for data in whole]


def read_back(pairs):
    """How many files were cleaned, and how many of them changed: what is written is a set by the present rules, which cleaning leaves, and with the old one's tasks, units and grid."""
    cleaned, changed = 0, 0
    for data, output in pairs:
        if output.startswith(b"refused"):
            continue
        old, new = brute.read_set(words_in(data), former=True), brute.read_set(words_in(output))
        assert isinstance(new, Set) and brute.cleaned(new) == new, data
        assert brute.lengths_of(new) == brute.lengths_of(old) and units_in(new) == units_in(old), data
        cleaned, changed = cleaned + 1, changed + (output != data)
    assert changed > 300 and cleaned - changed > 1000, (cleaned, changed)
    return cleaned, changed


def units_in(s):
    """The units of each action of each task."""
    return [list(map(brute.units_of, task)) for task in s.tasks]


def again(program, pairs):
    """What the program wrote comes back if it is cleaned once more."""
    clean = {output for data, output in pairs if data != output and not output.startswith(b"refused")}
    program.files([(data, data) for data in sorted(clean)])


def tool(program):
    """tools/clean.py over the program: a stored set is mended in its place, one that is refused stays as it was; and the example for authors becomes example a."""
    run = [sys.executable, os.path.join(ROOT, "tools", "clean.py"), "--cleaner", program.path]
    example = subprocess.run([*run, os.path.join(ROOT, "examples", "s.words")], capture_output=True)
    program.expect("examples/s.words", (example.returncode, example.stdout, example.stderr), (0, A, b""))
    with tempfile.TemporaryDirectory() as folder:
        path = os.path.join(folder, "x.set")
        too_many = OLD_UNITS.replace(b"\x01\x00\x03\x30", b"\x01\x00\x05\x30")
        mended = [(OLD, 0, NEW, b""), (NEW, 0, NEW, b""), (OLD_UNITS, 0, NEW_UNITS, b""), (NEW_UNITS, 0, NEW_UNITS, b"")]
        refused = [(OLD[:8], 1, OLD[:8], b"refused 11 at 2\n"), (OLD[:9], 1, OLD[:9], b"refused 15 at 2\n"), (too_many, 1, too_many, b"refused 28 at 3\n")]
        for data, status, after, output in mended + refused:
            with open(path, "wb") as file:
                file.write(data)
            ended = subprocess.run([*run, "--bytes", path, "-o", path], capture_output=True)
            with open(path, "rb") as file:
                program.expect("tools/clean.py", (ended.returncode, ended.stdout, file.read(), os.listdir(folder)), (status, output, after, ["x.set"]))


def main():
    if len(sys.argv) != 2:
        sys.exit("usage: python3 tests/test_clean.py CLEAN")
    program = Program(sys.argv[1], "clean")
    pairs = files()
    cleaned, changed = read_back(pairs)
    program.files(pairs)
    again(program, pairs)
    print("test_clean: %d files cleaned or refused as they must be, %d cleaned, %d of them changed" % (len(pairs), cleaned, changed))
    program.in_pieces(*pairs[0])
    program.streams()
    program.arguments("clean < SETFILE > CLEANFILE")
    tool(program)
    print("test_clean: reads and writes that fail, and arguments, are told on standard error; tools/clean.py mends a set in its place")


if __name__ == "__main__":
    main()
