#!/usr/bin/env python3
"""Runs the printer on a set, and tells by its status what came of it: 0 a plan, 1 a refusal, 2 neither.

The set is text as words.py reads it, or bytes with --bytes. What the printer prints goes to standard
output. A refusal is told in a sentence on standard error too, with the line of the text where it has
one: 'plan.py: FILE:LINE: what is wrong'.

Status 2 comes with a line on standard error, if something could not be read, run or written, or if
the printer's output is neither one line 'refused N at P' nor a whole plan, whose last line is END
with the number of lines before it.
"""
import re

from programs import arguments_on_a_set, refusal_in, run, set_in, told
from set_text import FIELDS, KINDS, Complaint, end_with, put, say, title

PROGRAM = "plan.py"


def is_plan(output):
    """Words as lines, of which the last is END and counts the others."""
    if not re.fullmatch(rb"([0-9A-F]{8}\n)+", output):
        return False
    lines = output.split()
    return int(lines[-1], 16) == KINDS[b"END"] * FIELDS + len(lines) - 1


def main():
    options = arguments_on_a_set(PROGRAM, __doc__, "printer", "printer").parse_args()
    text, data = set_in(options.file, options.bytes)
    for warning in text.warnings:
        say(PROGRAM, warning)
    output, status = run(options.printer, data)
    put(output)
    refusal = refusal_in(output)
    if status != 0:
        raise Complaint("%s: the printer ended with status %d" % (title(options.file), status))
    if not (refusal or is_plan(output)):
        raise Complaint("%s: what the printer printed is neither a whole plan nor a refusal" % title(options.file))
    if refusal:
        say(PROGRAM, told(text, refusal))
        return 1
    return 0


if __name__ == "__main__":
    end_with(PROGRAM, main)
