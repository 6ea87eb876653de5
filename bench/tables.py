#!/usr/bin/env python3
"""tables.py calls|questions|cleanings|trials|stack: reads the lines of `bench calls`, `bench questions`, `bench cleanings`, `bench trials` or `bench stack` on standard input and
prints them as the tables of docs/PERFORMANCE.md."""
import sys

CALLS = ("read", "bid", "again", "route")
ANSWERS = ("granted", "busy", "held", "share spent", "finished")  # of a trial's bids


def print_row(*cells):
    print("| %s |" % " | ".join(cells))


def print_head(*cells):
    print_row(*cells)
    print("|" + "---|" * len(cells))


def print_analyses(rows):
    print_head("set", "plan", "proved, µs", "yardstick, µs", "ratio")
    for name, _, call, answer, proved, yardstick in rows:
        if call.startswith("analyse"):
            print_row(name + call[len("analyse"):], answer, "%.1f" % (proved / 1e3), "%.1f" % (yardstick / 1e3), "%.2f" % (proved / yardstick))


def print_calls(rows):
    """A row a set: each call's ratio, with its time in brackets. A set that is refused has no again and no route. What stands behind a call's name makes a row of its own."""
    print_head("set", "words", *CALLS)
    sets = {}
    for name, words, call, _, proved, yardstick in rows:
        call, comma, what = call.partition(",")
        if call in CALLS:
            sets.setdefault((name + comma + what, words), {})[call] = "%.2f (%.2f)" % (proved / yardstick, proved / 1e3)
    for (name, words), cells in sets.items():
        print_row(name, words, *(cells.get(call, "") for call in CALLS))


def print_questions(rows):
    """A row a state, and what a plan word costs."""
    print_head("plan of", "tasks", "words", "state", "answer", "proved, µs", "yardstick, µs", "ratio", "ns a word")
    for name, tasks, words, place, answer, proved, yardstick in rows:
        times = ("%.2f" % (proved / 1e3), "%.2f" % (yardstick / 1e3), "%.2f" % (proved / yardstick), "%.1f" % (proved / int(words)))
        print_row(name, tasks, words, place, answer, *times)


def print_cleanings(rows):
    """A row a set and a slice, and what a word costs."""
    print_head("set", "words", "words that go", "answer", "proved, µs", "yardstick, µs", "ratio", "ns a word")
    for name, words, go, answer, proved, yardstick in rows:
        times = ("%.2f" % (proved / 1e3), "%.2f" % (yardstick / 1e3), "%.2f" % (proved / yardstick), "%.1f" % (proved / int(words)))
        print_row(name, words, go, answer, *times)


def print_trials(rows):
    """A row a trial, and what a bid costs."""
    print_head("trial", "tasks", "bids", "answers", "proved, µs", "yardstick, µs", "ratio", "ns a bid")
    for name, tasks, bids, *answers, proved, yardstick in rows:
        told = ", ".join("{:,} {}".format(int(n), answer) for n, answer in zip(answers, ANSWERS) if n != "0")
        times = ("{:,.2f}".format(proved / 1e3), "{:,.2f}".format(yardstick / 1e3), "%.2f" % (proved / yardstick), "%.1f" % (proved / int(bids)))
        print_row(name, tasks, "{:,}".format(int(bids)), told, *times)


lines = [line.rstrip("\n").split("\t") for line in sys.stdin]
if sys.argv[1] == "calls":
    measured = [(*line[:4], float(line[4]), float(line[5])) for line in lines]
    print("## The analysis\n")
    print_analyses(measured)
    print("\n## The calls in service\n")
    print_calls(measured)
elif sys.argv[1] == "questions":
    print("\n## Questions to a stored plan\n")
    print_questions([(*line[:5], float(line[5]), float(line[6])) for line in lines])
elif sys.argv[1] == "cleanings":
    print("\n## Cleaning\n")
    print_cleanings([(*line[:4], float(line[4]), float(line[5])) for line in lines])
elif sys.argv[1] == "trials":
    print("\n## Trials\n")
    print_trials([(*line[:8], float(line[8]), float(line[9])) for line in lines])
else:
    print("\n## Stack\n")
    print_head("call", "most measured on the sets above, bytes")
    for call, taken in lines:
        print_row("`%s`" % call if call.startswith("arbiter_") else call, "{:,}".format(int(taken)))
