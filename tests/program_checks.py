"""What test_printer.py, test_clean.py and test_trial.py share: files that are damaged, and how a program that reads a set from standard input is run on files, in pieces, on
streams that fail and with arguments. What isn't as it must be ends the test with a line."""

import os
import re
import subprocess
import sys
import time
from pathlib import Path

from brute import word_bytes, words_of
from make_corpus import random_set


def damaged(dice):
    """A set's file cut at every length, bytes of every length, and sets with bytes replaced and the rest cut off."""
    good = word_bytes(words_of(*random_set(dice, 60)))
    for length in range(len(good)):
        yield good[:length]
    for length in range(200):
        yield bytes(dice.pick([0, 1, 2, 0x10, 0x20, 0x30, 0x40, 0x50, 0xFF]) for _ in range(length))
    for _ in range(200):
        bad = bytearray(good)
        for _ in range(dice.between(1, 3)):
            bad[dice.below(len(bad))] = dice.below(256)
        yield bytes(bad[: dice.between(1, len(bad))])


def sized():
    """Files of lengths that matter: none, parts of a word, and about as many words as a set may have."""
    lengths = [b"", b"\0", b"\0" * 3, b"\0" * 4, b"\0\0\0\x20", b"\1\0\0\x50\0\0\0\x20", b"\0\0\0\x20\1\0\0\x50\0"]
    return lengths + [word_bytes([0x20000000]) * 4096, b"\0" * 16383, b"\0" * 16384, b"\0" * 16385, b"\0" * 16388, b"\0" * 100000]


class Program:
    """A program by its path and its name, and the arguments with which it does its work."""

    def __init__(self, path, name, words=()):
        self.path, self.name, self.words = os.path.abspath(path), name, words

    def expect(self, what, got, wanted):
        if got != wanted:
            sys.exit("test_%s: %s: %.200s .., not %.200s .." % (self.name, what, repr(got), repr(wanted)))

    def said(self, words, redirected=""):
        """What is written to standard output and to standard error, with standard input and output as the shell redirects them."""
        ended = subprocess.run(["sh", "-c", 'exec "$0" "$@" ' + redirected, self.path, *words], stdin=subprocess.DEVNULL, capture_output=True, check=True)
        return ended.stdout, ended.stderr.decode("ascii")

    def files(self, pairs):
        """Each file with what must be written for it."""
        for number, (data, output) in enumerate(pairs):
            got = subprocess.run([self.path, *self.words], input=data, capture_output=True, check=True)
            what = "file %d (%d bytes, %s ..) %.60s" % (number, len(data), data[:32].hex(), " ".join(self.words))
            self.expect(what, (got.stdout, got.stderr), (output, b""))

    def in_pieces(self, data, output):
        """A file that comes a few bytes at a time is the same file."""
        running = subprocess.Popen([self.path, *self.words], stdin=subprocess.PIPE, stdout=subprocess.PIPE)
        for begin in range(0, len(data), 5):
            running.stdin.write(data[begin : begin + 5])
            running.stdin.flush()
            time.sleep(0.001)
        self.expect("a file in pieces", running.communicate()[0], output)

    def streams(self):
        """A read or a write that fails: one line on standard error, and nothing on standard output."""
        for what, redirected, why in (
            ("a directory", "< /", "read standard input: Is a directory"),
            ("no standard input", "<&-", "read standard input: Bad file descriptor"),
            ("no standard output", ">&-", "write standard output: Bad file descriptor"),
        ):
            self.expect(what, self.said(self.words, redirected), (b"", "%s: can't %s\n" % (self.name, why)))
        if os.path.exists("/dev/full"):
            for words in [self.words, ("--help",), ("--version",)]:
                full = (b"", "%s: can't write standard output: No space left on device\n" % self.name)
                self.expect("a full device", self.said(words, "> /dev/full"), full)

    def arguments(self, usage, takes="no file name"):
        """--help and --version; anything else is told how the program is used."""
        told = (b"", "%s: it takes %s, it reads standard input: %s\n" % (self.name, takes, usage.split(" > ")[0]))
        for words in [("a.set",), ("",), ("--hel",), ("--help ",), ("--Help",), ("-h",), ("x" * 5000,), ("--help", "--version")]:
            self.expect("%s %s" % (self.name, " ".join(words)[:20]), self.said(words), told)
        self.expect("--version", self.said(("--version",)), (b"%s %s\n" % (self.name.encode(), version()), ""))
        text, complaint = self.said(("--help",))
        self.expect("--help", (complaint, text.decode("ascii").startswith("usage: %s\n" % usage), text.endswith(b"\n")), ("", True, True))


def version():
    """The version that hosts are told, as three numbers with points."""
    header = Path(__file__).resolve().parent.parent / "include" / "arbiter.h"
    number = int(re.search(r"#define ARBITER_VERSION (\d+)", header.read_text()).group(1))
    return b"%d.%d.%d" % (number // 10000, number // 100 % 100, number % 100)
