#!/usr/bin/env python3
"""Tries settings on a set before a shift, and tells by its status what came of it: 0 a table for each pair of
settings, 1 a refusal, 2 neither.

The set is text as words.py reads it, or bytes with --bytes. From a fresh broker its tasks bid down ORDER, task
numbers with commas between them, round after round, until every task is finished or ROUNDS are over; so for each
SHARE/WINDOW. The tables stand side by side, two in a row.

A refusal stands in the place of all tables, as one line 'refused N at P', and goes in a sentence to standard error
too, behind what it is about: the line of the text, 'trial.py: FILE:LINE: what is wrong', the pair, or the ORDER.

Status 2 comes with a line on standard error, if an argument can't be taken, if something could not be read, run or
written, or if what the program printed is neither such a line nor a whole table.
"""
import os
import re

from programs import arguments_on_a_set, refusal_in, run, sentence, set_in, told
from set_text import Complaint, end_with, put, quoted, say, title

PROGRAM = "trial.py"

# What the numbers of a trial are taken up to, and how many tasks an order may have; the refusals that aren't about the set.
MAX_TASK, MAX_ROUNDS, MAX_SETTING, MAX_ORDER = 255, 65535, 2**32 - 1, 255
BAD_SETTING, BAD_ORDER = 26, 27
NUMBER = "[0-9]{1,10}"

COLUMNS = "task  actions  granted      busy      held  share spent"
TABLE = rb"order of \d+, rounds \d+, share \d+, window \d+\n%s\n(?:(?: *\d+){6}\n){1,8}" % COLUMNS.encode()
TABLE += rb"bids answered Finished: \d+\nbids made: \d+, (?:every task is finished|the rounds ran out)\n"


def numbers_in(text, form, most, what):
    """The numbers of an argument of this form, or a complaint that says what it must be."""
    numbers = re.findall("[0-9]+", text) if re.fullmatch(form, text) else [most + 1]
    if any(int(number) > most for number in numbers):
        raise Complaint("%s: %s" % (quoted(os.fsencode(text)), what))
    return [int(number) for number in numbers]


def order_in(text):
    return numbers_in(text, "(%s(,%s)*)?" % (NUMBER, NUMBER), MAX_TASK, "ORDER is task numbers from 0 to 7 with commas between them, as 0,1,0,2")


def rounds_in(text):
    return numbers_in(text, NUMBER, MAX_ROUNDS, "ROUNDS is a number from 0 to %d" % MAX_ROUNDS)


def pair_in(text):
    return numbers_in(text, "%s/%s" % (NUMBER, NUMBER), MAX_SETTING, "settings are a share and a window, from 1 to 255, as 2/5")


def order_told(order, place):
    """What is wrong with an order, by its place, which is counted from 0 as tasks are."""
    if not order:
        return "ORDER: it names no task"
    if place == MAX_ORDER:
        return "ORDER: it names more than %d tasks" % MAX_ORDER
    return "ORDER: place %d, counted from 0, names task %d, which the set doesn't have" % (place, order[place])


def trial_told(text, order, pair, refusal):
    """A refusal in a sentence, behind what it is about."""
    number, place = refusal
    if number == BAD_SETTING:
        return "%d/%d: %s" % (*pair, sentence(number))
    if number == BAD_ORDER:
        return order_told(order, place)
    return told(text, refusal)


def side_by_side(tables):
    """Tables of one set, which have equally many lines, two in a row."""
    lines = [[line.ljust(len(COLUMNS)) for line in table.decode().splitlines()] for table in tables]
    rows = [zip(*lines[i : i + 2]) for i in range(0, len(lines), 2)]
    return "\n".join("".join("   ".join(parts).rstrip() + "\n" for parts in row) for row in rows).encode()


def output_of(program, data, words, name):
    """What the program prints with these arguments: a table or a refusal."""
    output, status = run(program, data, words)
    if status != 0:
        raise Complaint("%s: the program ended with status %d" % (title(name), status))
    if not (refusal_in(output) or re.fullmatch(TABLE, output)):
        raise Complaint("%s: what the program printed is neither a whole table nor a refusal" % title(name))
    return output


def main():
    parser = arguments_on_a_set(PROGRAM, __doc__, "program", "run_trial")
    parser.add_argument("order", metavar="ORDER", help="1 to %d task numbers with commas between them" % MAX_ORDER)
    parser.add_argument("rounds", metavar="ROUNDS", help="how often the tasks bid down the order at most, 0 to %d" % MAX_ROUNDS)
    parser.add_argument("pairs", metavar="SHARE/WINDOW", nargs="+", help="settings to try, 1 to 255 each")
    options = parser.parse_args()
    order, rounds, pairs = order_in(options.order), rounds_in(options.rounds), [pair_in(pair) for pair in options.pairs]
    text, data = set_in(options.file, options.bytes)
    for warning in text.warnings:
        say(PROGRAM, warning)
    places = ",".join(map(str, order[: MAX_ORDER + 1]))  # with one more than there may be, by which the program tells that there are too many
    tables = []
    for pair in pairs:
        output = output_of(options.program, data, [places, *map(str, rounds + pair)], options.file)
        refusal = refusal_in(output)
        if refusal:
            put(output)
            say(PROGRAM, trial_told(text, order, pair, refusal))
            return 1
        tables.append(output)
    put(side_by_side(tables))
    return 0


if __name__ == "__main__":
    end_with(PROGRAM, main)
