"""The printer on whole files, held to the brute search, and what it says where it can't read or write or is asked otherwise:
python3 tests/test_printer.py target/bin/printer."""

import sys

import brute
from brute import CLAIM, RELEASE, Set, word_bytes, words_of
from make_corpus import Dice, damaged_unit_words, large_sets, large_unclean_lists, mutated, named_sets, random_set, sized_set, tight_set, tight_unit_set, unclean_set
from make_corpus import unclean_unit_set, unit_lists, unit_sets
from program_checks import Program, damaged, sized


def long_plan():
    """Two tasks whose holds of one device make 43 * 43 forbidden boxes of nine words: more than the printer's slice."""
    task = [(CLAIM, 0), (RELEASE, 0)] * 43
    s = Set([1], [task, task] + [[]] * 6)
    assert len(brute.forbidden_boxes(s)) * 9 > 16384
    return word_bytes(words_of(*s))


def pairs_of(n, m):
    """One device, and two tasks with n and m holds of it: n * m boxes of three words."""
    return words_of(*Set([1], [[(CLAIM, 0), (RELEASE, 0)] * n, [(CLAIM, 0), (RELEASE, 0)] * m]))


def files():
    """Each file with what must be printed for it."""
    dice = Dice(2026)
    sets = named_sets() + large_sets()[:1] + [tight_set(dice, 300) for _ in range(40)] + [unclean_set(dice, 60) for _ in range(20)]
    lists = [words_of(*s) for s in sets] + [mutated(dice, words_of(*random_set(dice, 60))) for _ in range(40)] + large_unclean_lists()
    # longer plans, one of them with as many words as the printer's slice: 5,461 boxes of three words and END
    lists += [pairs_of(11, 31), pairs_of(18, 19), pairs_of(43, 127)]
    # claims of several units
    lists += [words_of(*s) for s in unit_sets() + [make(dice, 200) for make in (tight_unit_set, sized_set, unclean_unit_set) for _ in range(15)]]
    lists += unit_lists(dice) + [damaged_unit_words(dice) for _ in range(40)]
    whole = [word_bytes(words) for words in lists] + sized() + list(damaged(dice))
    pairs = [(data, brute.printed(data).encode("ascii")) for data in whole]
    return pairs + [(long_plan(), b"refused 14 at 16384\n")]


def main():
    if len(sys.argv) != 2:
        sys.exit("usage: python3 tests/test_printer.py PRINTER")
    printer = Program(sys.argv[1], "printer")
    pairs = files()
    printer.files(pairs)
    print("test_printer: %d files printed as they must be" % len(pairs))
    printer.in_pieces(*pairs[0])
    printer.streams()
    printer.arguments("printer < SETFILE")
    print("test_printer: reads and writes that fail, and arguments, are told on standard error")


if __name__ == "__main__":
    main()
