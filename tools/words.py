#!/usr/bin/env python3
"""Turns a set written as text into bytes on standard output, four a word, lowest first.

A word a line: eight hexadecimal digits, behind which the rest of the line is a comment; or DEVICE n,
TASK, CLAIM n, RELEASE n or END, with n in decimal, and END's count made by itself. A claim of more than
one unit says how many, as CLAIM 0 UNITS 2; its release gives all of them back. From # on a line is a
comment. Nothing is written if a line is wrong. A plan as the printer prints it is such a text too.

It ends with status 0, or with 2 and a line 'words.py: FILE:LINE: what is wrong' on standard error.
It doesn't tell whether the set is accepted; plan.py does.
"""
import re

from set_text import Complaint, arguments_of, bytes_of, end_with, put, read_text, say, shown, title

PROGRAM = "words.py"


def index_of(text):
    if not re.fullmatch(r"[0-9]{1,9}", text):
        raise Complaint("'%s' is no word's index: the first word has 0" % shown(text))
    return int(text)


def where(text, index):
    """The line of one word: FILE:LINE: and what stands there."""
    count = len(text.words)
    if index >= count:
        raise Complaint("%s: no word has the index %d: the last one has %d" % (title(text.name), index, count - 1))
    line = text.words[index].line
    return "%s:%d: %s\n" % (title(text.name), line, shown(text.lines[line - 1].decode("utf-8", "replace").strip()))


def main():
    parser = arguments_of(PROGRAM, __doc__)
    parser.add_argument("file", metavar="FILE", help="the set as text; - for standard input")
    parser.add_argument("--where", metavar="P", help="print the line of the word with the index P, counted from 0, as in 'refused N at P', and no bytes")
    options = parser.parse_args()
    text = read_text(options.file)
    if options.where is not None:
        put(where(text, index_of(options.where)).encode())
        return 0
    for warning in text.warnings:
        say(PROGRAM, warning)
    put(bytes_of(text.words))
    return 0


if __name__ == "__main__":
    end_with(PROGRAM, main)
