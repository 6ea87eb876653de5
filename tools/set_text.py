"""What the tools share: sets written as text, complaints of one line, and reading and writing that may fail.

docs/AUTHORS.md says how a set is written. Everything here that goes wrong is a Complaint, so that no file and no closed output ends in a traceback.
"""
import argparse
import os
import re
import struct
import sys
from collections import namedtuple

KINDS = {b"DEVICE": 1, b"TASK": 2, b"CLAIM": 3, b"RELEASE": 4, b"END": 5}
WITH_A_NUMBER = {b"DEVICE": "the number of its units", b"CLAIM": "a device's number", b"RELEASE": "a device's number", b"UNITS": "the number of units claimed"}
HINTS = {b"CLAIM": "several units are written as in CLAIM 0 UNITS 2, and a comment starts with #", b"RELEASE": "it gives all units back, and a comment there starts with #"}
FIELDS = 1 << 28  # a word is its kind times this, plus its field
EXTRA_UNITS = 1 << 16  # a CLAIM's field is its device, which is below this, plus the units beyond the first times this
MAX_UNITS = 256
DIGITS = 8  # of a word in hexadecimal
IN_DIGITS = re.compile(rb"[0-9A-Fa-f]{%d}" % DIGITS)

MAX_BYTES = 1 << 20  # of a text: far more than any set needs, and an end for files that have none
MAX_SHOWN = 24  # characters of a file that a complaint repeats

Word = namedtuple("Word", "value line")  # the line is counted from 1, as editors do
Text = namedtuple("Text", "name words lines warnings")  # the lines as bytes; a warning has the form of a complaint


class Complaint(Exception):
    """What is wrong, in one line, with the file and the line where there is one."""


# --- What is shown to people ---


def shown(text):
    """On one line, whatever stands in it."""
    return "".join(c if c.isprintable() else ascii(c)[1:-1] for c in text)


def quoted(token):
    text = token.decode("utf-8", "replace")
    return "'%s'" % shown(text if len(text) <= MAX_SHOWN else text[:MAX_SHOWN] + "..")


def title(name):
    return "standard input" if name == "-" else shown(name)


def say(program, message):
    """A line on standard error. There is nobody to tell if that fails."""
    try:
        os.write(2, ("%s: %s\n" % (program, message)).encode())
    except OSError:
        pass


def put(data):
    """Writes all of it to standard output, past sys.stdout, which would try a failed write again when Python ends."""
    if sys.stdout is None:
        raise Complaint("standard output: it is closed")
    left = memoryview(data)
    try:
        while left:
            left = left[os.write(1, left):]
    except OSError as error:
        raise Complaint("standard output: %s" % error.strerror)


# --- Files ---


def read_bytes(name):
    """A file's bytes, of a longer one the first MAX_BYTES and one more; the name - stands for standard input."""
    data = b""
    try:
        with open(0 if name == "-" else name, "rb", buffering=0, closefd=name != "-") as file:
            part = None
            while part != b"":  # which comes too where no more is asked for
                part = os.read(file.fileno(), MAX_BYTES + 1 - len(data))
                data += part
    except OSError as error:
        raise Complaint("%s: %s" % (title(name), error.strerror))
    return data


# --- Words ---


def number_of(name, rest, most):
    """The number that stands behind a name, in decimal, at the front of the rest of a line."""
    if not rest:
        raise Complaint("%s is missing behind %s" % (WITH_A_NUMBER[name], name.decode()))
    token = rest[0]
    digits = token.lstrip(b"0") or b"0"
    if not re.fullmatch(rb"[0-9]+", token):
        raise Complaint("%s is no number: behind %s stands %s, in decimal" % (quoted(token), name.decode(), WITH_A_NUMBER[name]))
    if len(digits) > len(str(most)) or int(digits) > most:
        raise Complaint("%s is too large for a word: %d is the most" % (quoted(token), most))
    return int(digits)


def units_of(rest):
    """The units of a claim, which stand behind UNITS."""
    units = number_of(b"UNITS", rest, MAX_UNITS)
    if units == 0:
        raise Complaint("a claim takes one unit at least")
    return units


def field_of(name, rest, before):
    """The field of a word by its name, and what else stands on the line."""
    if name == b"END":
        return before, rest
    if name not in WITH_A_NUMBER:
        return 0, rest
    if name != b"CLAIM":
        return number_of(name, rest, FIELDS - 1), rest[1:]
    device, rest = number_of(name, rest, EXTRA_UNITS - 1), rest[1:]
    if not rest or rest[0].upper() != b"UNITS":
        return device, rest
    return (units_of(rest[1:]) - 1) * EXTRA_UNITS + device, rest[2:]


def word_of(tokens, before):
    """The word that a line without its comment stands for; `before` is the number of words before it."""
    head, rest = tokens[0], tokens[1:]
    name = head.upper()
    if IN_DIGITS.fullmatch(head):
        if rest and IN_DIGITS.fullmatch(rest[0]):
            raise Complaint("%s is a second word: write one a line" % quoted(rest[0]))
        return int(head, 16)  # what else stands behind it is a comment, also without #
    if re.fullmatch(rb"[0-9A-Fa-f]+", head):
        raise Complaint("a word has %d hexadecimal digits, %s has %d" % (DIGITS, quoted(head), len(head)))
    if name not in KINDS:
        raise Complaint("%s is no word: write %d hexadecimal digits, or DEVICE, TASK, CLAIM, RELEASE or END" % (quoted(head), DIGITS))
    field, rest = field_of(name, rest, before)
    if rest:
        raise Complaint("%s can't stand behind %s: %s" % (quoted(rest[0]), name.decode(), HINTS.get(name, "a comment there starts with #")))
    return KINDS[name] * FIELDS + field


def lines_of(name):
    """The lines of a text, as bytes: comments may be in any encoding."""
    data = read_bytes(name)
    if b"\0" in data:
        raise Complaint("%s: this is no text, a byte 0 stands in it: is it a set in bytes?" % title(name))
    if len(data) > MAX_BYTES:
        raise Complaint("%s: over %d bytes: this is no set" % (title(name), MAX_BYTES))
    mark = b"\xef\xbb\xbf"  # what some editors put before a text in UTF-8
    return (data[len(mark):] if data.startswith(mark) else data).splitlines()


def read_text(name):
    """A set written as text. An END that counts wrong is taken as it is, with a warning: refusals are tried with it."""
    lines = lines_of(name)
    words, warnings = [], []
    for number, line in enumerate(lines, 1):
        tokens = line.split(b"#")[0].split()
        if not tokens:
            continue
        place = "%s:%d" % (title(name), number)
        try:
            word = word_of(tokens, len(words))
        except Complaint as complaint:
            raise Complaint("%s: %s" % (place, complaint))
        if word // FIELDS == KINDS[b"END"] and word % FIELDS != len(words):
            warnings.append("%s: warning: END counts %d words, but %d stand before it" % (place, word % FIELDS, len(words)))
        words.append(Word(word, number))
    if not words:
        raise Complaint("%s: there is no word in it" % title(name))
    return Text(name, words, lines, warnings)


def bytes_of(words):
    """A set's bytes, four a word, lowest first."""
    return struct.pack("<%dI" % len(words), *(word.value for word in words))


# --- Programs ---


class Arguments(argparse.ArgumentParser):
    """The arguments of a program, with its help and its complaints in the form of all others."""

    def print_help(self, file=None):
        put(self.format_help().encode())

    def error(self, message):
        raise Complaint("%s; --help says how it is used" % shown(message))


def arguments_of(program, text):
    return Arguments(prog=program, description=text, formatter_class=argparse.RawDescriptionHelpFormatter, allow_abbrev=False)


def end_with(program, main):
    """Ends the program with the status that main returns, or with 2 and a line on standard error."""
    try:
        status = main()
    except Complaint as complaint:
        say(program, complaint)
        status = 2
    except KeyboardInterrupt:
        status = 2
    sys.exit(status)
