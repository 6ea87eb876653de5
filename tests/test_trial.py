"""The program `run_trial` on sets, orders and settings of every kind, held to the brute search; what it says where it can't read or write or an argument can't be taken;
and tools/trial.py over it, on the page's example too: python3 tests/test_trial.py target/bin/run_trial."""

import os
import re
import subprocess
import sys
from collections import Counter
from pathlib import Path

import brute
from brute import Set, Settings, word_bytes, words_in, words_of
from make_corpus import Dice, damaged_unit_words, large_sets, mutated, named_sets, random_set, sized_set, tight_set, tight_unit_set, unit_set, unit_sets
from program_checks import Program, damaged, sized

ROOT = os.path.dirname(os.path.dirname(os.path.abspath(__file__)))
TOOLS = os.path.join(ROOT, "tools")
sys.path.insert(0, TOOLS)

from set_text import bytes_of, read_text  # noqa: E402

SHIFT = os.path.join(ROOT, "examples", "shift.words")
PATCH = os.path.join(ROOT, "examples", "patch.words")
LARGEST = 2**32 - 1


def text_of(s, trial, order, rounds, settings):
    """The table of a trial that was made on a set."""
    lengths = brute.lengths_of(s)
    lines = ["order of %d, rounds %d, share %d, window %d" % (len(order), rounds, *settings)]
    lines += ["task  actions  granted      busy      held  share spent"]
    lines += ["%4d%9d%9d%10d%10d%13d" % (task, actions, *trial.rows[task]) for task, actions in enumerate(lengths)]
    ended = all(row[0] == actions for row, actions in zip(trial.rows, lengths))
    lines += ["bids answered Finished: %d" % trial.finished]
    lines += ["bids made: %d, %s" % (trial.answer[1], "every task is finished" if ended else "the rounds ran out")]
    return "".join(line + "\n" for line in lines)


def output_for(data, order, rounds, settings):
    """What the program has to print."""
    words = words_in(data)
    if isinstance(words, tuple):
        return brute.refusal_line(words)
    s = brute.read_set(words)
    map_ = brute.map_of(s) if isinstance(s, Set) else []
    trial = brute.trial(words, map_, order, rounds, settings)
    if trial.answer[0] == "refused":
        return brute.refusal_line(trial.answer)
    tallies = sum(map(sum, trial.rows))
    assert tallies + trial.finished == trial.answer[1] <= len(order) * rounds
    return text_of(s, trial, order, rounds, settings)


def any_order(dice, tasks):
    """Mostly of tasks that are there, one of them often more than the others; at times with one that isn't, empty, or about as long as an order may be."""
    length = dice.pick([1, 2, 3, 5, 8, 8, 13, 21, 254, 255, 256, 300])
    fast = dice.below(tasks)
    order = [dice.pick([fast, dice.below(tasks)]) for _ in range(length)]
    if dice.below(10) == 0:
        order[dice.below(length)] = dice.pick([tasks, 8, 9, 255])
    return order if dice.below(20) else []


def any_settings(dice):
    """From 1 to 255, but one in twelve."""
    share, window = (dice.pick([1, 1, 2, 3, 5, 8, 255]) for _ in range(2))
    wrong = dice.pick([0, 256, 257, 65537, LARGEST])
    return Settings(*dice.pick([(share, window)] * 22 + [(wrong, window), (share, wrong)]))


def any_rounds(dice, tasks, order):
    """Any number where every task bids, which ends the trial; else so few that the brute search comes to their end."""
    rounds = dice.pick([0, 1, 2, 3, 5, 8, 13, 40, 65535])
    return rounds if set(order) == set(range(tasks)) else min(rounds, 2000 // max(len(order), 1))


def case_of(dice, data, tasks):
    order = any_order(dice, tasks)
    return data, order, any_rounds(dice, tasks, order), any_settings(dice)


def cases():
    """Sets, damaged ones and files that are none, each with an order, rounds and settings."""
    dice = Dice(2028)
    sets = [s for s in named_sets() if brute.grid_of(s) <= 3000] * 3 + large_sets()[:1] + [make(dice, 300) for make in (tight_set, random_set) for _ in range(200)]
    sets += unit_sets() + [make(dice, 200) for make in (unit_set, tight_unit_set, sized_set) for _ in range(20)]
    bad = [word_bytes(mutated(dice, words_of(*random_set(dice, 60)))) for _ in range(60)] + sized() + list(damaged(dice))[::5]
    bad += [word_bytes(damaged_unit_words(dice)) for _ in range(40)]
    return [case_of(dice, word_bytes(words_of(*s)), len(s.tasks)) for s in sets] + [case_of(dice, data, 1) for data in bad]


def words_for(order, rounds, settings):
    return [",".join(map(str, order)), str(rounds), *map(str, settings)]


def tables(program):
    """Each case, and how many of them end in which way."""
    met = Counter()
    for data, *asked in cases():
        output = output_for(data, *asked)
        Program(program.path, program.name, words_for(*asked)).files([(data, output.encode("ascii"))])
        met[output.split(" at ")[0] if output.startswith("refused") else output.split(", ")[-1].strip()] += 1
    for ending, least in (("every task is finished", 100), ("the rounds ran out", 50), ("refused 26", 20), ("refused 27", 50), ("refused 15", 5), ("refused 11", 5)):
        assert met[ending] >= least, met
    return met


def longest(program):
    """As many bids as there can be: example a's task 1 never bids. Task 0 is done after four, or after three waits for ever for its share, which task 1 could use."""
    data = bytes_of(read_text(os.path.join(ROOT, "examples", "a.words")).words)
    made = 255 * 65535
    for share, row, finished in ((255, (4, 0, 0, 0), made - 4), (1, (3, 0, 0, made - 3), 0)):
        trial = brute.Trial(("tried", made), (row, (0, 0, 0, 0)), finished)
        asked = [0] * 255, 65535, Settings(share, 255)
        output = text_of(brute.read_set(words_in(data)), trial, *asked)
        Program(program.path, program.name, words_for(*asked)).files([(data, output.encode("ascii"))])


def own_run():
    """What rt runs the program on is the shift's example, and what it must print there is what the brute search says."""
    folder = os.path.join(ROOT, "crates", "run_trial")
    data, words, output = (Path(folder, name).read_bytes() for name in ("stdin", "args", "stdout"))
    assert data == bytes_of(read_text(SHIFT).words) and words.split() == b"2,0,2,1,3 100 2 4".split()
    assert output.decode("ascii") == output_for(data, [2, 0, 2, 1, 3], 100, Settings(2, 4))


def wrong_arguments(program):
    """Four arguments of which one can't be taken: one line on standard error, whatever stands on standard input."""
    order = "run_trial: ORDER must be task numbers from 0 to 7 with commas between them, as 0,1,0,2\n"
    rounds = "run_trial: ROUNDS must be a number from 0 to 65535\n"
    share, window = ("run_trial: %s must be a number from 1 to 255\n" % name for name in ("SHARE", "WINDOW"))
    for place, told, words in (
        (0, order, [",", "0,", ",0", "0,,1", "0;1", "0 1", "0, 1", "x", "-1", "+1", "256", "0,300", "0,4294967296", "0x1", "\u0660", "0," * 2000]),
        (0, "run_trial: ORDER is too long, it may have 255 tasks\n", ["0," * 2048 + "0", "x" * 5000]),
        (1, rounds, ["", "x", "-1", "+1", "1.5", "65536", "100000", "4294967296", "18446744073709551616", " 1", "1 ", "0" * 17]),
        (2, share, ["", "x", "-1", "1/2", "4294967296", "18446744073709551617", "9" * 40]),
        (3, window, ["", "x", "-1", "1/2", "4294967296", "18446744073709551617", "9" * 40]),
    ):
        for word in words:
            asked = ["0,1", "2", "3", "4"]
            asked[place] = word
            program.expect(" ".join(asked)[:60], program.said(asked), (b"", told))
    for count in (1, 2, 3, 5):
        told = "run_trial: it takes four arguments, it reads standard input: run_trial ORDER ROUNDS SHARE WINDOW < SETFILE\n"
        program.expect("%d arguments" % count, program.said(["1"] * count), (b"", told))
    # Zeros before a number, an order without tasks, and one that is too long but not in characters: these are the trial's matter.
    for asked, output in ((["00,1", "02", "003", "0000000000000004"], b"refused 1 at 0\n"), (["", "1", "1", "1"], b"refused 1 at 0\n"), (["0," * 2047 + "0", "1", "1", "1"], b"refused 1 at 0\n")):
        program.expect(" ".join(asked)[:60], program.said(asked), (output, ""))


def run_tool(program, *words):
    ended = subprocess.run([sys.executable, os.path.join(TOOLS, "trial.py"), "--program", program.path, *words], capture_output=True, cwd=ROOT)
    return ended.returncode, ended.stdout.decode(), ended.stderr.decode()


def tool(program):
    """tools/trial.py over the program: tables side by side, and refusals told by what they are about."""
    data = bytes_of(read_text(SHIFT).words)
    order = [2, 0, 2, 1, 3]
    left, right, below = (output_for(data, order, 100, Settings(*pair)) for pair in ((255, 255), (1, 4), (2, 4)))
    beside = "".join("%-55s   %s\n" % lines for lines in zip(left.splitlines(), right.splitlines()))
    shown = run_tool(program, SHIFT, "2,0,2,1,3", "100", "255/255", "1/4", "2/4")
    program.expect("trial.py", shown, (0, beside + "\n" + below, ""))
    # The second patch waits while the first has its channels, and the call doesn't.
    patched = output_for(bytes_of(read_text(PATCH).words), [0, 1, 2], 9, Settings(255, 255))
    assert "   1        2        2         1         0            0\n   2        2        2         0         0            0\n" in patched, patched
    program.expect("trial.py on the patches", run_tool(program, PATCH, "0,1,2", "9", "255/255"), (0, patched, ""))
    long = ",".join(["3"] * 3000)
    for words, output, told in (
        ((SHIFT, "0", "1", "1/1", "1/256"), "refused 26 at 0", "1/256: "),
        ((SHIFT, "0,1,4,9", "1", "1/1"), "refused 27 at 2", "ORDER: place 2, counted from 0, names task 4, which the set doesn't have\n"),
        ((SHIFT, "", "1", "1/1"), "refused 27 at 0", "ORDER: it names no task\n"),
        ((SHIFT, long, "1", "1/1"), "refused 27 at 255", "ORDER: it names more than 255 tasks\n"),
        ((os.path.join(ROOT, "examples", "s.words"), "0", "1", "1/1"), "refused 24 at 1", "%s:3: " % os.path.join(ROOT, "examples", "s.words")),
    ):
        status, got, complaint = run_tool(program, *words)
        program.expect("trial.py " + " ".join(words)[:60], (status, got, complaint[: len("trial.py: " + told)]), (1, output + "\n", "trial.py: " + told))


def page(program):
    """Each command of the authors' page that tries settings prints what stands below it."""
    with open(os.path.join(ROOT, "docs", "AUTHORS.md"), encoding="utf-8") as file:
        shown = re.findall(r"^    python3 tools/trial\.py (.*)\n\n(?:[^ \n].*\n)*\n?((?:    .*\n)+)", file.read(), re.M)
    for command, block in shown:
        status, output, complaint = run_tool(program, *command.split())
        program.expect(command, (status, re.sub("(?m)^", "    ", output.rstrip("\n")) + "\n", complaint), (0, block, ""))
    return len(shown)


def main():
    if len(sys.argv) != 2:
        sys.exit("usage: python3 tests/test_trial.py RUN_TRIAL")
    program = Program(sys.argv[1], "run_trial", words_for([0, 1, 0], 9, Settings(1, 2)))
    met = tables(program)
    longest(program)
    own_run()
    print("test_trial: %d trials print what they must, %s" % (sum(met.values()), ", ".join("%d %s" % (count, ending) for ending, count in met.most_common(4))))
    data = bytes_of(read_text(SHIFT).words)
    program.in_pieces(data, output_for(data, [0, 1, 0], 9, Settings(1, 2)).encode("ascii"))
    program.streams()
    program.arguments("run_trial ORDER ROUNDS SHARE WINDOW < SETFILE", "four arguments")
    wrong_arguments(program)
    tool(program)
    assert page(program) >= 2
    print("test_trial: reads and writes that fail, and arguments, are told on standard error; tools/trial.py shows what docs/AUTHORS.md shows")


if __name__ == "__main__":
    main()
