#!/usr/bin/env python3
"""serve.py LIBRARY SETFILE [SHARE WINDOW]: the example host in Python, through a shared library made from libarbiter.a and refusal_text.c
(docs/HOSTS.md, "Other languages"). It prints what serve.c prints, which says what it does, and ends with the same status.
"""
import ctypes
import os
import sys
from ctypes import POINTER, c_char_p, c_size_t, c_uint8, c_uint16, c_uint32, c_uint64

# The numbers of include/arbiter.h that are used here.
VERSION = 60000
MAX_WORDS = 4096
MAX_SETTING = 255
NOT_ANALYSED = 0xFF
DEVICE, TASK, FORBIDDEN_BOX, UNSAFE_BOX, DEAD_STATE, UNREACHED_STATE = 1, 2, 6, 7, 9, 10
REFUSED, GRANTED, FINISHED, BUSY, HELD, SHARE_SPENT = 0, 4, 5, 6, 7, 13
TOO_MANY_WORDS, PLAN_TOO_SHORT, BYTES_NOT_WORDS = 2, 14, 15


class Answer(ctypes.Structure):
    _fields_ = [("kind", c_uint32), ("refusal", c_uint32), ("value", c_uint64)]


class Analysis(ctypes.Structure):
    _fields_ = [("answer", Answer), ("quotient", c_uint32), ("remainder", c_uint32)]


class Record(ctypes.Structure):
    _fields_ = [("positions", c_uint8 * 8), ("grants", c_uint32), ("counts", c_uint8 * 8)]


class State(ctypes.Structure):
    _fields_ = [("positions", c_uint8 * 8)]


class Tally(ctypes.Structure):
    _fields_ = [("granted", c_uint32), ("busy", c_uint32), ("held", c_uint32), ("share_spent", c_uint32)]


class Trial(ctypes.Structure):
    _fields_ = [("answer", Answer), ("rows", Tally * 8), ("finished", c_uint64)]


WORDS, BYTES = [POINTER(c_uint32), c_size_t], [POINTER(c_uint8), c_size_t]  # a slice is its address and its number of elements
CALLS = {
    "arbiter_version": ([], c_uint32),
    "arbiter_read": (WORDS, Answer),
    "arbiter_analyse": (WORDS + BYTES + WORDS, Analysis),
    "arbiter_fresh": ([], Record),
    "arbiter_bid": ([POINTER(Record)] + WORDS + BYTES + [c_size_t, c_uint32, c_uint32], Answer),
    "arbiter_again": ([POINTER(Record)] + WORDS, Answer),
    "arbiter_route": ([Record] + WORDS + BYTES + BYTES, Answer),
    "arbiter_locate": ([State] + WORDS + [c_size_t], Answer),  # for hosts that keep plans, which this one doesn't
    "arbiter_clean": (WORDS + WORDS, Answer),  # for hosts that keep sets
    "arbiter_trial": (WORDS + BYTES + BYTES + [c_uint16, c_uint32, c_uint32], Trial),
    "arbiter_refusal_text": ([c_uint32], c_char_p),
}


def stop(why):
    print("serve.py:", why, file=sys.stderr)
    sys.exit(2)


def loaded(path):
    """The library, with the types of its calls; of the version that this file is written for."""
    library = ctypes.CDLL(path)
    for name, (arguments, answer) in CALLS.items():
        call = getattr(library, name)
        call.argtypes, call.restype = arguments, answer
    if library.arbiter_version() != VERSION:
        stop("the library isn't of the version that this program is written for")
    return library


def refused(library, refusal, place):
    print(f"refused {refusal} at {place}: {library.arbiter_refusal_text(refusal).decode()}")
    sys.exit(1)


def value_of(library, answer):
    if answer.kind == REFUSED:
        refused(library, answer.refusal, answer.value)
    return answer.value


def number_in(argument, name):
    """The number in an argument of decimal digits, at most 32 bits: ctypes would cut a longer one to what the library might take."""
    if not (argument.isascii() and argument.isdigit()):
        stop(f"{name} isn't a number: 1 to 255")
    digits = argument.lstrip("0")[:11] or "0"  # eleven of them are more than 32 bits already
    return min(int(digits), 0xFFFFFFFF)


def words_in(library, path):
    """The words of a set file, with the refusals that come before any of the library's."""
    try:
        with open(path, "rb") as file:
            data = file.read(4 * MAX_WORDS + 1)
    except OSError as problem:
        stop(problem)
    if len(data) > 4 * MAX_WORDS:
        refused(library, TOO_MANY_WORDS, MAX_WORDS)
    if len(data) % 4 != 0:
        refused(library, BYTES_NOT_WORDS, len(data) // 4)
    return [int.from_bytes(data[i:i + 4], "little") for i in range(0, len(data), 4)]


def lent(element, values):
    """An array to lend; never without room, so that its address is never null."""
    return (element * max(1, len(values)))(*values)


def count(words, kind):
    return sum(word >> 28 == kind for word in words)


def analysed(library, words, states):
    """The map, filled with a byte that no map has before the analysis writes it; the plan, in a slice that is doubled while it is too short; and what
    the last analysis answered."""
    set_words, state_bytes = lent(c_uint32, words), lent(c_uint8, [NOT_ANALYSED] * states)
    size = 8
    while True:
        plan = lent(c_uint32, [0] * size)
        analysis = library.arbiter_analyse(set_words, len(words), state_bytes, states, plan, size)
        if analysis.answer.refusal != PLAN_TOO_SHORT:
            return state_bytes, plan[:value_of(library, analysis.answer)], analysis
        size *= 2


def said(answer):
    if answer.kind == BUSY:
        return f"waits for device {answer.value}"
    if answer.kind == HELD:
        return f"held back from unsafe state {answer.value}"
    return {GRANTED: "granted", FINISHED: "finished", SHARE_SPENT: "waits, since its share is spent"}[answer.kind]


def print_trial(library, lent_set, lent_map, tasks, share, window):
    """A trial of these settings: task 0, then every task in turn, for as many rounds as there may be, since it stops once every task is finished. ctypes
    would cut a longer number of rounds to 16 bits."""
    order = [0, *range(tasks)]
    trial = library.arbiter_trial(*lent_set, *lent_map, lent(c_uint8, order), len(order), 65535, share, window)
    print(f"trial with share {share}, window {window}: {value_of(library, trial.answer)} bids, {trial.finished} of them answered finished")
    for task, row in enumerate(trial.rows[:tasks]):
        print(f"trial, task {task}: {row.granted} granted, {row.busy} busy, {row.held} held, {row.share_spent} share spent")


def serve(library, path, share, window):
    words = words_in(library, path)
    set_words = lent(c_uint32, words)
    states = value_of(library, library.arbiter_read(set_words, len(words)))
    tasks = count(words, TASK)
    print(f"words: {len(words)}, devices: {count(words, DEVICE)}, tasks: {tasks}, states: {states}")

    state_bytes, plan, analysis = analysed(library, words, states)
    dead = f"{count(plan, DEAD_STATE)} reached, {count(plan, UNREACHED_STATE)} not"
    print(f"forbidden boxes: {count(plan, FORBIDDEN_BOX)}, unsafe boxes: {count(plan, UNSAFE_BOX)}, dead states: {dead}")
    print(f"unsafe: {analysis.quotient} of every 1000 permitted states, remainder {analysis.remainder}")

    print(f"share: {share}, window: {window}")
    record = library.arbiter_fresh()
    number, done = 0, 0
    while done < tasks:
        number, done = number + 1, 0
        for task in range(tasks):
            answer = library.arbiter_bid(record, set_words, len(words), state_bytes, states, task, share, window)
            value_of(library, answer)
            print(f"round {number}, task {task}: {said(answer)}")
            done += answer.kind == FINISHED
    print("grants:", record.grants)

    value_of(library, library.arbiter_again(record, set_words, len(words)))
    print("again: every task is at its start")

    route = lent(c_uint8, [0] * len(words))
    steps = value_of(library, library.arbiter_route(library.arbiter_fresh(), set_words, len(words), state_bytes, states, route, len(words)))
    print("route:", *route[:steps])

    for settings in ((share, window), (2, 2 * tasks)):  # the others: a claim and a release each, and room for them in the window
        print_trial(library, (set_words, len(words)), (state_bytes, states), tasks, *settings)


def main():
    if len(sys.argv) not in (3, 5):
        stop("usage: serve.py LIBRARY SETFILE [SHARE WINDOW]")
    settings = (number_in(sys.argv[3], "SHARE"), number_in(sys.argv[4], "WINDOW")) if len(sys.argv) == 5 else (MAX_SETTING, MAX_SETTING)
    try:
        try:
            serve(loaded(sys.argv[1]), sys.argv[2], *settings)
        finally:
            sys.stdout.flush()
    except (OSError, AttributeError) as problem:  # no such library or output, or a library without these calls
        os.dup2(os.open(os.devnull, os.O_WRONLY), 1)  # else Python tries again to write what is left, and complains
        stop(problem)


if __name__ == "__main__":
    main()
