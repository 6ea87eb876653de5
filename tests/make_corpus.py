"""Makes what the program `corpus` is run on, and what it must print: crates/corpus/stdin and crates/corpus/stdout.

    python3 tests/make_corpus.py            writes both files
    python3 tests/make_corpus.py --check    makes them again and fails if the files in the tree differ

The cases come from a fixed seed by a generator of this file's own, so they don't depend on Python's version. What is expected comes from tests/brute.py.

Input. Little-endian 32-bit words: the number of cases, then the cases. A case is
    a header of four words: the number of the set's words, the map slice's length, the plan slice's length, the number of calls;
    the set's words;
    the calls, four words each: its kind and three values, 0 where there are fewer.
The limits are the MAX_ numbers below. Each case starts with a fresh record, a map slice of bytes AA and a plan slice of words AAAAAAAA. The set is analysed
into the two slices, then the calls are made in order, accepted or not, on what the analysis left:
    0 BID task, share, window          a bid by value
    1 AGAIN
    2 ROUTE length                     a route into a slice of that length, filled with AA before
    3 RECORD positions, positions, grants  the record is replaced; tasks 0 to 3, then 4 to 7, a byte each, lowest first; its counts are 0
    4 POKE rank, byte                  one byte of the map is replaced
    5 LEND length                      later bids, routes and trials are lent only that much of the map slice
    6 BID_IN_PLACE task, share, window  a bid over a record that is lent to it
    7 ROUNDS times, tasks, bytes       so many times the bids of the first hexadecimal digits of `tasks`, the lowest digit first; how many digits, the share and the
                                       window are the bytes of the third value, the lowest first
    8 LOCATE tasks, positions, positions  a question to the stored plan, which is the plan slice at first
    9 STORE index, word                one word of the plan slice is replaced
   10 KEEP length                      from now on only that much of the plan slice is the stored plan
   11 SWEEP tasks, positions, positions  a question at every state of the tasks up to those positions, the last task's fastest; positions past the tasks are 255
   12 CLEAN length                     the set is cleaned into a slice of that length, filled with AAAAAAAA before; if accepted, what was written is the set of all later calls
   13 ANALYSE                          the set is analysed anew into the two slices, filled as at the start
   14 COUNTS counts, counts            the record's counts are replaced, as positions are
   15 PLACE place, tasks, tasks        eight bytes of the order's slice are replaced, from that place on; the slice has MAX_ORDER bytes, 0 at first
   16 ORDER length                     later trials are lent that much of the order's slice, nothing at first
   17 TRIAL rounds, share, window      a trial, which has a broker of its own: the record stays as it is

Output, a line each:
    case NUMBER: PLANNED               planned WORDS, unsafe QUOTIENT/1000 rest REMAINDER, or refused N at P
    map:DIGITS                         the whole slice: 0 to 3, '.' for AA, '?' for anything else; over 256 bytes '~' and the checksum
    plan: WORD WORD ..                 the whole slice in hexadecimal; over 32 words '~' and the checksum
and for each call that prints
    ANSWER RECORD                      for a bid or an again: granted, finished, busy D, held R, share spent, restarted or refused N at P, and the record after it:
                                       [POSITIONS] GRANTS, and behind these [COUNTS] unless all are 0
    ANSWER:STEPS                       for a route: routed LENGTH or refused N at P; the whole slice, a digit a task, '.' for AA, 'x' for 255, '?' otherwise
    rounds G F B H S R RECORD          how many bids were granted, finished, busy, held, answered share spent and refused, and the record after them
    ANSWER                             for a question: forbidden INDEX, unsafe INDEX, neither or refused N at P
    swept CHECKSUM:DIGITS              for a sweep: the checksum of the indices, a word each, 0 for none, P for a refusal; and for each state
                                       1 forbidden, 2 unsafe, 0 neither, 'x' refused; over 512 states '~' and the checksum of these bytes, 255 for 'x'
    ANSWER: WORD WORD ..               for a cleaning: cleaned WORDS or refused N at P; the whole slice, as a plan's
    PLANNED                            for an analysis, as for a case, and behind it the lines of the map and the plan
    ANSWER ROWS FINISHED               for a trial: tried MADE or refused N at P; eight rows, [GRANTED BUSY HELD SPENT] each, and the bids answered Finished
RECORD, COUNTS, POKE, LEND, STORE, KEEP, PLACE and ORDER print nothing. The checksum is FNV-1a of 32 bits over the slice's bytes, a word's lowest byte first, in eight
hexadecimal digits.
"""

import functools
import itertools
import math
import os
import re
import sys

import brute
from brute import CLAIM, DEVICE, END, FRESH, RELEASE, TASK, Record, Set, Settings, claim, grid_of, lengths_of, word_bytes, words_of

MAX_SET = 4097
MAX_MAP = 65600
MAX_PLAN = 16400
MAX_CALLS = 514
MAX_SWEEP = 65536
# An accepted set has at most 533 words.
MAX_CLEAN = 540
# Longer than 16 bits count.
MAX_ORDER = 65600
MAX_ROUNDS = 65535

# A cleaning and an analysis are put before a case's own calls.
CLEANING_CALLS = 2

# A sweep is printed whole up to this many states, and no route slice is longer.
ROW = 512
MAX_ROUTE = ROW

BID, AGAIN, ROUTE, RECORD, POKE, LEND, BID_IN_PLACE, ROUNDS, LOCATE, STORE, KEEP, SWEEP, CLEAN, ANALYSE, COUNTS, PLACE, ORDER, TRIAL = range(18)

MAP_FILL, PLAN_FILL = 0xAA, 0xAAAAAAAA

SEED = 0x7469726C757A6B61

# Settings and counts are drawn from dice of their own, so that the sets stay those of the versions without them.
SHARE_SEED = 0x6661697273686172

# Trials too.
TRIAL_SEED = 0x747269616C736565

# Sets with claims of several units too.
UNIT_SEED = 0x756E697473656564

HERE = os.path.dirname(os.path.abspath(__file__))
FILES = [os.path.join(HERE, "..", "crates", "corpus", name) for name in ("stdin", "stdout")]


class Dice:
    """Numbers by xorshift64*, the same on every machine."""

    def __init__(self, seed):
        self.state = seed

    def bits(self):
        x = self.state
        x ^= x >> 12
        x ^= (x << 25) & (2**64 - 1)
        x ^= x >> 27
        self.state = x
        return ((x * 0x2545F4914F6CDD1D) & (2**64 - 1)) >> 32

    def below(self, n):
        """0 to n - 1."""
        return self.bits() * n >> 32

    def between(self, low, high):
        return low + self.below(high - low + 1)

    def one_in(self, n):
        return self.below(n) == 0

    def pick(self, items):
        return items[self.below(len(items))]

    def mixed(self, items):
        """The items in another order."""
        rest, out = list(items), []
        while rest:
            out.append(rest.pop(self.below(len(rest))))
        return out


class Case:
    """A set's words, the lengths of the slices, and the calls; `finishes` where the calls must leave every task finished."""

    def __init__(self, words, map_length, plan_length, calls=(), finishes=False):
        self.words = list(words)
        self.map_length = map_length
        self.plan_length = plan_length
        self.calls = [tuple(call) + (0,) * (4 - len(call)) for call in calls]
        self.finishes = finishes


# --- What a case must print ---


def fnv(data):
    value = 0x811C9DC5
    for byte in data:
        value = (value ^ byte) * 0x01000193 & 0xFFFFFFFF
    return value


def eight_in(low, high):
    """The eight positions or counts that two words of a call give, a byte each."""
    return tuple(word_bytes([low, high]))


def map_text(slice_):
    if len(slice_) > 256:
        return "~%08X" % fnv(slice_)
    return "".join("." if byte == MAP_FILL else "0123"[byte] if byte <= 3 else "?" for byte in slice_)


def plan_text(slice_):
    if len(slice_) > 32:
        return " ~%08X" % fnv(word_bytes(slice_))
    return "".join(" %08X" % word for word in slice_)


def route_text(slice_):
    return "".join("." if byte == MAP_FILL else "x" if byte == 255 else "01234567"[byte] if byte <= 7 else "?" for byte in slice_)


def answer_text(answer):
    if answer[0] == "refused":
        return "refused %d at %d" % answer[1:]
    if answer[0] == "planned":
        return "planned %d, unsafe %d/1000 rest %d" % answer[1:]
    return " ".join(str(part) for part in answer)


def list_text(numbers):
    return "[%s]" % " ".join(str(number) for number in numbers)


def record_text(record):
    counts = " " + list_text(record.counts) if any(record.counts) else ""
    return "%s %d%s" % (list_text(record.positions), record.grants, counts)


@functools.lru_cache(maxsize=1)
def analysed(words, map_length, plan_length):
    """An analysis into slices that are filled before. The last is kept: most sets are clean, and analysed a second time as they are."""
    return brute.analyse(words, [MAP_FILL] * map_length, [PLAN_FILL] * plan_length)


class Play:
    """One case played: the lines that it must print, and what is asserted on the way."""

    def __init__(self, number, case):
        self.words = tuple(case.words)
        self.record = FRESH
        self.lent, self.kept = case.map_length, case.plan_length
        self.tasks, self.ordered = bytearray(MAX_ORDER), 0
        self.lengths = case.map_length, case.plan_length
        self.lines = ["case %d: " % number + self.analyse()] + self.slices()
        for call in case.calls:
            self.call(*call)
        if case.finishes:
            s = brute.read_set(self.words)
            assert self.record.positions[: len(s.tasks)] == lengths_of(s), "case %d must end with every task finished" % number

    def analyse(self):
        answer, self.map, self.plan = analysed(self.words, *self.lengths)
        return answer_text(answer)

    def slices(self):
        return ["map:%s" % map_text(self.map), "plan:%s" % plan_text(self.plan)]

    def clean(self, length):
        answer, slice_ = brute.clean(self.words, [PLAN_FILL] * length)
        if answer[0] == "cleaned":
            self.words = tuple(slice_[: answer[1]])
        return "%s:%s" % (answer_text(answer), plan_text(slice_))

    def bid(self, task, share, window):
        answer, self.record = brute.bid(self.words, self.map[: self.lent], self.record, task, Settings(share, window))
        return answer

    def rounds(self, times, tasks, packed):
        count, share, window, _ = word_bytes([packed])
        met = {"granted": 0, "finished": 0, "busy": 0, "held": 0, "share spent": 0, "refused": 0}
        for _ in range(times):
            for place in range(count):
                met[self.bid(tasks >> 4 * place & 15, share, window)[0]] += 1
        return "rounds %s" % " ".join(str(met[name]) for name in met)

    def trial(self, rounds, share, window):
        tried = brute.trial(self.words, self.map[: self.lent], self.tasks[: self.ordered], rounds, Settings(share, window))
        return "%s %s %d" % (answer_text(tried.answer), " ".join(list_text(row) for row in tried.rows), tried.finished)

    def locate(self, state, tasks):
        return brute.locate(state, self.plan[: self.kept], tasks)

    def sweep(self, tasks, last):
        states = itertools.product(*(range(position + 1) for position in last[:tasks]))
        answers = [self.locate(state + (255,) * (8 - tasks), tasks) for state in states]
        marks = [{"neither": 0, "forbidden": 1, "unsafe": 2, "refused": 255}[answer[0]] for answer in answers]
        shown = route_text(marks) if len(marks) <= ROW else "~%08X" % fnv(marks)
        return "swept %08X:%s" % (fnv(word_bytes(answer[-1] if answer[1:] else 0 for answer in answers)), shown)

    def call(self, kind, a, b, c):
        if kind in (BID, BID_IN_PLACE):
            self.lines.append("%s %s" % (answer_text(self.bid(a, b, c)), record_text(self.record)))
        elif kind == AGAIN:
            answer, self.record = brute.again(self.words, self.record)
            self.lines.append("%s %s" % (answer_text(answer), record_text(self.record)))
        elif kind == ROUTE:
            answer, steps = brute.route(self.words, self.map[: self.lent], self.record, [MAP_FILL] * a)
            self.lines.append("%s:%s" % (answer_text(answer), route_text(steps)))
        elif kind == RECORD:
            self.record = Record(eight_in(a, b), c, (0,) * 8)
        elif kind == COUNTS:
            self.record = Record(self.record.positions, self.record.grants, eight_in(a, b))
        elif kind == POKE:
            self.map = self.map[:a] + [b] + self.map[a + 1 :]
        elif kind == LEND:
            self.lent = a
        elif kind == ROUNDS:
            self.lines.append("%s %s" % (self.rounds(a, b, c), record_text(self.record)))
        elif kind == LOCATE:
            self.lines.append(answer_text(self.locate(eight_in(b, c), a)))
        elif kind == STORE:
            self.plan = self.plan[:a] + [b] + self.plan[a + 1 :]
        elif kind == KEEP:
            self.kept = a
        elif kind == SWEEP:
            self.lines.append(self.sweep(a, eight_in(b, c)))
        elif kind == CLEAN:
            self.lines.append(self.clean(a))
        elif kind == ANALYSE:
            self.lines += [self.analyse()] + self.slices()
        elif kind == PLACE:
            self.tasks[a : a + 8] = eight_in(b, c)
        elif kind == ORDER:
            self.ordered = a
        elif kind == TRIAL:
            self.lines.append(self.trial(a, b, c))


# --- Sets ---


def random_task(dice, devices, length, release):
    """A task of at most that many actions, an even number, on devices numbered below `devices`; it releases one time in `release`."""
    task, held = [], []
    while len(task) + len(held) + 2 <= length:
        free = [device for device in range(devices) if device not in held]
        if held and (not free or dice.one_in(release)):
            task.append((RELEASE, held.pop(dice.below(len(held)))))
        elif free:
            device = dice.pick(free)
            task.append((CLAIM, device))
            held.append(device)
        else:
            break
    return task + [(RELEASE, device) for device in dice.mixed(held)]


def random_tasks(dice, lengths, devices, release, limit):
    """A task for each length that still fits the limit on the grid; idle where none does."""
    tasks, grid = [], 1
    for length in lengths:
        while grid * (length + 1) > limit:
            length -= 2
        tasks.append(random_task(dice, devices, length, release))
        grid *= len(tasks[-1]) + 1
    return dice.mixed(tasks)


def deep_set(dice, limit):
    """Two to four tasks that claim several scarce devices one inside the other: where states are unsafe."""
    devices = dice.between(2, 4)
    lengths = [dice.pick([4, 6, 6, 8, 8, 10, 12]) for _ in range(dice.pick([2, 2, 2, 3, 3, 4]))]
    capacities = [dice.pick([1, 1, 1, 1, 1, 2]) for _ in range(devices)]
    return Set(capacities, random_tasks(dice, lengths + [0] * dice.pick([0, 0, 0, 1, 2]), devices, dice.pick([3, 5, 9]), limit))


def wide_set(dice, limit):
    """Three to eight tasks, mostly short, on a few devices of any capacity."""
    devices = dice.between(1, 3)
    lengths = [dice.pick([2, 2, 2, 4, 4, 6]) for _ in range(dice.between(3, 8))]
    return Set([dice.pick([1, 1, 2, 2, 3, 4, 5]) for _ in range(devices)], random_tasks(dice, lengths, devices, dice.pick([2, 4]), limit))


def loose_set(dice, limit):
    """Any number of tasks, some idle, and devices that may stay unused."""
    devices = dice.pick([0, 1, 1, 2, 3, 5, 16])
    lengths = [dice.pick([0, 2, 4, 6, 10, 16, 20]) for _ in range(dice.between(1, 8))]
    used = min(devices, dice.pick([1, 2, 3, 16]))
    return Set([dice.between(1, 8) if dice.one_in(2) else 1 for _ in range(devices)], random_tasks(dice, lengths, used, 3, limit))


def random_set(dice, limit):
    """A set whose grid is at most `limit`."""
    return dice.pick([deep_set, deep_set, deep_set, wide_set, wide_set, loose_set])(dice, limit)


def tight_set(dice, limit):
    """Of four random sets the first with an unsafe state that is not dead, or else the last."""
    for _ in range(4):
        s = random_set(dice, limit)
        if brute.UNSAFE in brute.map_of(s):
            break
    return s


def with_device(s, place, capacity):
    """The set with one more device in that place, which no task claims; the devices from there on get the next number."""
    capacities = s.capacities[:place] + [capacity] + s.capacities[place:]
    return Set(capacities, [[(kind, device + 1 if device >= place else device, *units) for kind, device, *units in task] for task in s.tasks])


def unclean_set(dice, limit):
    """A random set with a device or more put in that no task claims, as far as there is room among 16."""
    s = random_set(dice, limit)
    for _ in range(min(dice.pick([1, 1, 2, 3, 16]), 16 - len(s.capacities))):
        s = with_device(s, dice.below(len(s.capacities) + 1), dice.between(1, 8))
    return s


def ring(count):
    """Philosophers: each claims its own fork and the next one's."""
    return Set([1] * count, [[(CLAIM, i), (CLAIM, (i + 1) % count), (RELEASE, i), (RELEASE, (i + 1) % count)] for i in range(count)])


def crossing(depth):
    """Two tasks that claim the same devices in opposite orders."""
    up = [(CLAIM, d) for d in range(depth)] + [(RELEASE, d) for d in reversed(range(depth))]
    down = [(CLAIM, d) for d in reversed(range(depth))] + [(RELEASE, d) for d in range(depth)]
    return Set([1] * depth, [up, down])


def users(capacity, count, holds):
    """So many tasks that each claim and release one device so many times."""
    return Set([capacity], [[(CLAIM, 0), (RELEASE, 0)] * holds] * count)


def long_tasks(lengths, capacities=(1,)):
    """Tasks of these even action counts, all on device 0."""
    return Set(list(capacities), [[(CLAIM, 0), (RELEASE, 0)] * (length // 2) for length in lengths])


def apart(lengths):
    """Tasks of these even action counts, each on a device of its own, but the first and the last claim of each is of one that all share."""
    tasks = []
    for t, length in enumerate(lengths):
        pair = [(CLAIM, t + 1), (RELEASE, t + 1)]
        tasks.append([(CLAIM, 0), (RELEASE, 0)] + pair * (length // 2 - 1))
    return Set([1] * (len(lengths) + 1), tasks)


# Sets in which a next state lies in several boxes and it counts which of them is the blocker: the devices' capacities, a digit each, and the tasks, with + for a
# claim and - for a release; a claim of several units has them behind an x. They are rare among random sets.
SEVERAL_BLOCKERS = [
    "111 +0+2+1-2-1+2-0-2 +1+2+0-0-2-1",
    "111 +1+0+2-0-2-1 +2+0+1-0-1+0-0-2",
    "111 +2+0+1-0-1+0-2-0 +1+0+2-0-1-2",
    "111 +1+0-1+2-2-0 +2+0+1-0+0-2-1-0",
    "111 +2+1+0-1+1-1-2-0 +0+1-0+2-1-2",
    "111 +1-1+1+2+0-0-2+2-1-2 +0+2+1-0-2-1",
    "111 +0+1+2-1-0-2 +1+2-2+2+0-0-1+1-2-1",
    "111 +0+2-0+1-1-2 +1+2+0-0+0-2+2-0-1-2",
    "1111 +1+0-1+3-0-3 +1-1+0+3+1-0+0-1-3-0",
    "111 +0+2-0+1-2-1 +2+1+0-2+2-2+2-0-2-1",
    "111 +2+0+1-0+0-0-2-1 +1+0-1+2+1-2-0-1",
    "111 +0+1+2-1+1-0-2-1 +0+2-0+1-2+0-1-0",
    "1111 +1+0+3+2-0-2-1-3 +0+2+1-1-0+3+0-0-2-3",
    "11111 +4+2+3-4-3+4-2-4 +0+4-0-4+3+4+2-3-4-2",
    "111 +0+2+1-0+0-2-0-1 +0+1-0+0-1+2+1-2-0-1",
]

# Sets with dead states that are reached and some that aren't, in the same notation; and sets with dead states of which none is reached, which are rare among random
# ones. In those of three and four tasks no task can be left out.
BOTH_DEAD = [
    "111 +1+0+2-1+1-0-1-2 +1+0-0+2-2-1",
    "11 +1+0-0+0-0-1 +1+0-1+1-0+0-1-0",
    "11 +0+1-1+1-0+0-1-0 +1+0-1+1-1+1-1-0",
    "11 +0-0+0+1-1+1-1-0+1-1 +1+0-0-1+1+0-0+0-0-1",
    "111 +1+0+2-2+2-1-2-0 +0+1+2-0-1+1+0-2-0-1",
    "1111 +0+2-2+3-0-3 +2+0-0+1-2-1 +3+2-3-2 +1+3-3-1",
    "1111 +3+0-3+1-1-0 +0+2+1-2+2-1-0-2 +0+2-0+3-2-3",
    "12 +0+1-0+0-0-1 +0+1-0+0-1-0 +1+0-1+1-0-1",
]
ONLY_UNREACHED = [
    "111 +2+1-2+0-1-0 +2+1-1+0+1-2-1-0",
    "111 +1+0-1+2-0-2 +1+0+2-0+0-0+0-0-1-2",
    "111 +0+2-0+1-1-2 +0+2+1-1+1-2+2-2-1-0",
    "111 +2+1+0-1+1-1-2-0 +1-1+2+1-2+0-0-1",
    "111 +1+2+0-2+2-2-0-1 +1+2-1+0-2-0",
    "1111 +0+2-0+3-2+2-2-3 +2-2+3+1-1-3 +0+2-2+1+2-2-1-0",
    "212 +1+2-1+0-2-0 +1+2+0-2+2-0-2-1 +0+1+2-1+1-0-2-1",
    "1111 +1+3-1+0-0-3 +2+3-3-2 +1+3-3+0+2-0-2-1",
]


def written_set(text):
    """A set from that notation."""
    capacities, *tasks = text.split()
    return Set([int(capacity) for capacity in capacities], [written_task(task) for task in tasks])


def written_task(text):
    actions = re.findall("([+-])([0-9])(?:x([0-9]))?", text)
    return [claim(int(device), int(units or 1)) if sign == "+" else (RELEASE, int(device)) for sign, device, units in actions]


def with_idle(s):
    """The set with idle tasks before the others, between them and behind them, and everywhere."""
    first, *others = s.tasks
    lists = [[[], first] + others, [first, []] + others, [first] + others + [[], []], [[], first, [], []] + others + [[]]]
    return [Set(s.capacities, tasks) for tasks in lists]


def named_sets():
    """Families whose shape is known."""
    sets = [ring(n) for n in (2, 3, 4)] + [crossing(n) for n in range(1, 7)]
    sets += [users(capacity, count, 1) for capacity in range(1, 9) for count in range(1, 6)]
    sets += [users(1, 2, 3), users(1, 2, 8), users(2, 3, 3), users(3, 4, 2)]
    sets += [Set([1] * n, [[]] * t) for n in (0, 1, 16) for t in (1, 2, 8)]
    sets += [Set(s.capacities, [[]] * k + s.tasks + [[]] * k) for s in (crossing(2), ring(3)) for k in (1, 2)]
    sets += [Set([1] * 14 + s.capacities, [[(kind, d + 14) for kind, d in task] for task in s.tasks]) for s in (crossing(2),)]
    sets += [written_set(text) for text in SEVERAL_BLOCKERS + BOTH_DEAD + ONLY_UNREACHED]
    for texts in (BOTH_DEAD, ONLY_UNREACHED):
        sets += with_idle(written_set(texts[0])) + with_idle(written_set(texts[-1]))
    return sets


def large_sets():
    """A few that are large: the largest grid, many tasks, many boxes."""
    idle = [[]] * 6
    return [
        ring(5),
        users(1, 8, 1),
        users(7, 8, 1),
        users(8, 8, 1),
        Set([1], users(1, 2, 24).tasks + idle),
        apart([12, 70, 70]),
        apart([254, 254]),
        long_tasks([254]),
        long_tasks([254, 0, 0, 0, 0, 0, 0, 0], [8]),
    ]


# --- Calls ---


def eight_words(numbers):
    """Two words, a byte for each of up to eight positions or counts."""
    return tuple(sum(number << 8 * place for place, number in enumerate(part)) for part in (numbers[:4], numbers[4:]))


def record_call(positions, grants):
    return (RECORD,) + eight_words(positions) + (grants,)


def counts_call(counts):
    return (COUNTS,) + eight_words(counts)


def any_task(dice, s):
    """Mostly a task of the set, now and then a number that is none's."""
    if dice.one_in(12):
        return dice.pick([len(s.tasks), 8, 9, 15, 255, 256, 0x7FFFFFFF, 0xFFFFFFFF])
    return dice.below(len(s.tasks))


def random_calls(dice, s, count):
    """Bids of both kinds, agains and routes."""
    actions = sum(lengths_of(s))
    calls = []
    for _ in range(count):
        kind = dice.below(12)
        if kind < 9:
            calls.append((dice.pick([BID, BID_IN_PLACE]), any_task(dice, s)))
        elif kind < 10:
            calls.append((AGAIN,))
        else:
            calls.append((ROUTE, min(MAX_ROUTE, dice.pick([0, actions, actions + 2, dice.below(actions + 1)]))))
    return calls


def one_more(dice, count):
    """Now and then a task more in a round of so many, or a number that is none's."""
    return [dice.below(10)] if count < 8 and dice.one_in(3) else []


def round_calls(dice, s, rounds, more=one_more):
    """So many rounds: each names every task at least once, in some order, and what `more` gives."""
    calls = []
    while rounds > 0:
        tasks = dice.mixed(list(range(len(s.tasks))) + more(dice, len(s.tasks)))
        times = dice.between(1, min(rounds, 4))
        calls.append((ROUNDS, times, sum(task << 4 * place for place, task in enumerate(tasks)), len(tasks)))
        rounds -= times
    return calls


def wrap_calls(dice, s):
    """A grant number near the wrap, and grants over it."""
    return [record_call([0] * 8, 0xFFFFFFFF - dice.below(4))] + [(dice.pick([BID, BID_IN_PLACE]), dice.below(len(s.tasks))) for _ in range(10)]


def random_positions(dice, s):
    lengths = lengths_of(s)
    return [dice.between(0, length) for length in lengths] + [0] * (8 - len(lengths))


def spoilt_positions(dice, s):
    """Positions with one over its L, or not 0 for an absent task."""
    positions = random_positions(dice, s)
    task = dice.below(8)
    length = lengths_of(s)[task] if task < len(s.tasks) else 0
    positions[task] = dice.pick([length + 1, dice.between(length + 1, 255), 255])
    return positions


def spoilt_record_calls(dice, s):
    """Records at any state and beyond, each with a bid, an again and a route."""
    calls = []
    for _ in range(4):
        positions = dice.pick([random_positions, spoilt_positions, random_positions])(dice, s)
        calls.append(record_call(positions, dice.bits()))
        calls += dice.mixed([(BID, any_task(dice, s)), (BID_IN_PLACE, any_task(dice, s)), (AGAIN,), (ROUTE, min(MAX_ROUTE, sum(lengths_of(s))))])
    return calls


def end_calls(dice, s):
    """At the end: routes of no step, bids that find their task finished, again."""
    lengths = list(lengths_of(s)) + [0] * (8 - len(s.tasks))
    tail = [(BID, dice.below(len(s.tasks))), (ROUTE, dice.below(4)), (AGAIN,), (BID_IN_PLACE, dice.below(len(s.tasks))), (AGAIN,)]
    return [record_call(lengths, dice.bits())] + tail


def edge_calls(dice, s):
    """Bids of every task at open states that are a step away from one that is not open, and routes from states of every byte."""
    states, bytes_ = brute.states_of(s), brute.map_of(s)
    shut = {state for state, byte in zip(states, bytes_) if byte != brute.OPEN}
    tasks = range(len(s.tasks))
    edges = [state for state in states if state not in shut and any(brute.next_state(state, task) in shut for task in tasks)]
    unsafe = [state for state, byte in zip(states, bytes_) if byte in (brute.UNSAFE, brute.DEAD)]
    calls = []
    for some in (edges, edges, edges, unsafe, states):
        if some:
            calls.append(record_call(list(dice.pick(some)) + [0] * (8 - len(s.tasks)), dice.bits()))
            calls.append((ROUTE, min(MAX_ROUTE, sum(lengths_of(s)))))
            calls += [(dice.pick([BID, BID_IN_PLACE]), task) for task in dice.mixed(tasks)]
    return calls


def spoilt_map_calls(dice, s):
    """Map bytes replaced in places, each followed by calls at the state itself, at one a step before it and at the start."""
    open_states = [state for state, byte in zip(brute.states_of(s), brute.map_of(s)) if byte == brute.OPEN]
    calls = []
    for _ in range(dice.between(1, 4)):
        before = list(dice.pick(open_states))
        left = [task for task, length in enumerate(lengths_of(s)) if before[task] < length]
        state = list(brute.next_state(tuple(before), dice.pick(left))) if left else before
        calls.append((POKE, brute.rank_of(s, state), dice.pick([0, 1, 2, 3, 4, 5, 128, 255])))
        for positions in (before, dice.pick([state, before, [0] * len(state)])):
            calls.append(record_call(positions + [0] * (8 - len(positions)), dice.below(1000)))
            calls += [(dice.pick([BID, BID_IN_PLACE]), task) for task in range(len(s.tasks))]
            calls.append((ROUTE, min(MAX_ROUTE, sum(lengths_of(s)) + dice.below(2))))
    return calls


def short_route_calls(dice, s):
    """Routes with a slice too short by one, by more, exact and longer."""
    calls = []
    for _ in range(3):
        positions = dice.pick([[0] * 8, random_positions(dice, s)])
        left = sum(lengths_of(s)) - sum(positions)
        calls.append(record_call(positions, 0))
        calls += [(ROUTE, min(MAX_ROUTE, length)) for length in (max(0, left - 1), dice.below(left + 1), left, left + 3)]
    return calls


def lend_calls(dice, s):
    """Bids, agains and routes lent a map that is too short, empty, exact."""
    grid = grid_of(s)
    calls = []
    for length in (grid - 1, 0, dice.below(grid), grid):
        calls.append((LEND, length))
        calls += [(BID, any_task(dice, s)), (BID_IN_PLACE, any_task(dice, s)), (ROUTE, dice.below(8)), (AGAIN,)]
    return calls


# --- Questions to stored plans ---


def strewn(dice, positions):
    """Eight positions that begin with these; the others, which are unread, are anything."""
    return list(positions) + [dice.bits() & 255 for _ in range(8 - len(positions))]


def locate_call(dice, tasks, positions):
    return (LOCATE, tasks) + eight_words(strewn(dice, positions))


def boxes_in(plan):
    """The (first, last) places of a plan's boxes."""
    heads = [index for index, word in enumerate(plan) if brute.kind_of(word) in (6, 7)]
    return [(head, head + sum(1 for _ in itertools.takewhile(lambda word: brute.kind_of(word) == 8, plan[head + 1 :]))) for head in heads]


def own_plan_calls(s):
    """Questions to the plan that an analysis with room for it left, at every state."""
    return [(KEEP, plan_length(s)), (SWEEP, len(s.tasks)) + eight_words(lengths_of(s))]


def put(plan, place, *words):
    """The plan with these words in the place of one; its END counts anew, where it still ends with one."""
    changed = plan[:place] + list(words) + plan[place + 1 :]
    return recounted(changed) if place < len(plan) - 1 else changed


def recounted(plan):
    return plan[:-1] + [END << 28 | len(plan) - 1]


def spoilt_heads(dice, plan):
    """Devices of 16 and more, a field in kind 7, unused bits, other kinds: at each box's first word."""
    plans = []
    for head, _ in boxes_in(plan):
        word = plan[head]
        plans += [put(plan, head, word & 0xF0000000 | field) for field in (16 | word & 15, 0x100, 1 << dice.between(4, 27), 0xFFFFFFF)]
        plans += [put(plan, head, kind << 28) for kind in dice.mixed([0, 1, 2, 3, 4, 5, 8, 9, 10, 11, 15])[:3]]
        plans += [put(plan, head, 0x70000001)]
    return plans


def spoilt_sides(dice, plan):
    """At each side: bounds exchanged, an unused bit, another task's side, the side twice, none, another kind."""
    plans = []
    for head, last in boxes_in(plan):
        for place in range(head + 1, last + 1):
            word = plan[place]
            high = word & 255
            plans += [put(plan, place, word & 0xFFFF0000 | low << 8 | high) for low in {min(255, high + 1), 255} if high < low]
            plans += [put(plan, place, word ^ 1 << dice.between(24, 27)), put(plan, place, word ^ 1 << dice.between(16, 23))]
            plans += [put(plan, place, word, word), put(plan, place), put(plan, place, dice.pick([0, 1, 5, 6, 7, 9, 10, 11, 15]) << 28 | word & 0xFFFFFFF)]
            if place < last:
                plans.append(put(plan, place, plan[place + 1]))
                plans.append(recounted(plan[:place] + [plan[place + 1], plan[place]] + plan[place + 2 :]))
    return plans


def rank_parts(plan):
    """A plan without its END in three parts: its boxes, its dead states that are reached, and the others."""
    return [[word for word in plan[:-1] if brute.kind_of(word) in kinds] for kinds in ((6, 7, 8), (9,), (10,))]


def spoilt_ranks(plan):
    """Ranks of either kind that are equal or fall, and that stand before a box and in one; and unknown kinds behind them."""
    body, *lists = rank_parts(plan)
    plans = []
    for number, kind in enumerate((9, 10)):
        least, most = kind << 28, kind << 28 | 0xFFFFFFF
        rises = lists[number] or [least | 5]
        top = rises[-1]
        for more in ([], [top], [top - 1], [top + 1, top + 1], [top + 1, top], [most, least], [top + 1, most]):
            reached, others = lists[:number] + [rises + more] + lists[number + 1 :]
            plans.append(closed(body + reached + others))
        plans += [closed([word] + plan[:-1]) for word in (least, most)]
        plans += [put(plan, place, plan[place - 1]) for place in range(1, len(plan)) if brute.kind_of(plan[place - 1]) == brute.kind_of(plan[place]) == kind]
        plans += [put(plan, place, plan[place], least) for box in boxes_in(plan) for place in box]
    return plans + [closed(plan[:-1] + [kind << 28 | 5]) for kind in (11, 12, 13, 14, 15)]


def mixed_ranks(plan):
    """Each rank in the other kind; behind the reached ones others that are lower, equal and higher, which the layout takes, and behind these a reached one, which it doesn't."""
    body, reached, others = rank_parts(plan)
    plans = [put(plan, place, plan[place] ^ 0x30000000) for place in range(len(body), len(plan) - 1)]
    plans += [closed(body + reached + [0xA0000000 | field]) for field in [0, 0xFFFFFFF] + [brute.field_of(rank) for rank in reached]]
    others = others or [0xA0000005]
    top = brute.field_of(others[-1])
    return plans + [closed(body + reached + others + [0x90000000 | field]) for field in (0, top, top + 1, 0xFFFFFFF)]


def spoilt_orders(plan):
    """Boxes of the two kinds exchanged, a box behind ranks, END before its time."""
    plans = []
    boxes = boxes_in(plan)
    for (head, last), (other, end) in zip(boxes, boxes[1:]):
        plans.append(recounted(plan[:head] + plan[other : end + 1] + plan[last + 1 : other] + plan[head : last + 1] + plan[end + 1 :]))
    for head, last in boxes[:1] + boxes[-1:]:
        plans.append(recounted(plan[:-1] + plan[head : last + 1] + plan[-1:]))
    return plans + [put(plan, place, END << 28 | place, plan[place]) for place in range(len(plan) - 1)]


def spoilt_ends(dice, plan):
    """A wrong count, and words behind END."""
    count = len(plan) - 1
    plans = [plan[:-1] + [END << 28 | (count + wrong) % 2**28] for wrong in (1, -1, 256, 1 << dice.between(9, 27))]
    return plans + [plan + more for more in ([END << 28 | len(plan)], [plan[-1]], [0x9FFFFFFF], [0xAFFFFFFF], [0x60000000], [0], [0xFFFFFFFF, 0])]


def damaged(dice, plan, most):
    """Up to so many plans damaged at one of its places, and the plan cut at every length."""
    spoilt = spoilt_heads(dice, plan) + spoilt_sides(dice, plan) + spoilt_ranks(plan) + mixed_ranks(plan) + spoilt_orders(plan) + spoilt_ends(dice, plan)
    return dice.mixed(spoilt)[:most] + [plan[:length] for length in range(len(plan))]


def bit_changes(plan):
    """The plan with any one bit of its words turned."""
    return [plan[:place] + [plan[place] ^ 1 << bit] + plan[place + 1 :] for place in range(len(plan)) for bit in range(32)]


def random_plan(dice, tasks):
    """A plan of the layout that no set need have: boxes that overlap, in one kind and in both, any ranks, in one kind and in both."""
    top = dice.pick([1, 2, 3, 5, 255])
    words = []
    for head in [0x60000000 | dice.below(16) for _ in range(dice.below(4))] + [0x70000000] * dice.below(4):
        words.append(head)
        for task in range(tasks):
            low, high = sorted((dice.between(0, top), dice.between(0, top)))
            words.append(0x80000000 | task << 16 | low << 8 | high)
    for kind in (9, 10):
        ranks = {dice.below(4) if dice.one_in(2) else dice.bits() >> 4 for _ in range(dice.below(4))}
        words += [kind << 28 | rank for rank in sorted(ranks)]
    return closed(words)


def random_words(dice, tasks):
    """Words that mostly belong in a plan, in any order."""
    words = []
    for index in range(dice.below(9)):
        side = 0x80000000 | dice.below(tasks + 1) << 16 | dice.below(3) << 8 | dice.between(1, 3)
        reached, other, end = 0x90000000 | dice.below(4), 0xA0000000 | dice.below(4), END << 28 | index + dice.pick([0, 0, 1])
        words.append(dice.pick([0x60000000 | dice.below(17), 0x70000000, 0x70000000 | dice.below(2), side, side, side, reached, reached, other, other, end, dice.bits()]))
    return words


def edge_positions(dice, plan, tasks):
    """A state at a corner of one of the boxes, or a step outside of it, or any."""
    boxes = boxes_in(plan)
    if not boxes or dice.one_in(4):
        return [dice.pick([0, 1, 2, 255, dice.below(256)]) for _ in range(tasks)]
    head, last = dice.pick(boxes)
    positions = [dice.pick([word & 255, word >> 8 & 255]) for word in plan[head + 1 : last + 1]][:tasks]
    if positions and dice.one_in(2):
        place = dice.below(len(positions))
        positions[place] = min(255, max(0, positions[place] + dice.pick([-1, 1])))
    return positions


def all_around(dice, plan, tasks):
    """Questions to a plan of the layout: at every state of a small grid, at corners, for wrong task counts."""
    side = {1: 7, 2: 7, 3: 7, 4: 3, 5: 2}.get(tasks, 1)
    calls = [(SWEEP, tasks) + eight_words([side] * tasks)] + [locate_call(dice, tasks, edge_positions(dice, plan, tasks)) for _ in range(6)]
    wrong = [0, 9, 256 + tasks, 0x10000 + tasks, 0xFFFFFFFF] + [count for count in range(1, 9) if count != tasks]
    return calls + [locate_call(dice, count, edge_positions(dice, plan, tasks)) for count in dice.mixed(wrong)[:4]]


def store_calls(slice_, plan):
    """Calls that put a plan over the front of the plan slice, which holds this now, and keep no more."""
    return [(STORE, index, word) for index, word in enumerate(plan) if slice_[index] != word] + [(KEEP, len(plan))]


def question_cases(s, asked):
    """Cases on a set that ask its own plan, then store one plan after the other over it, and make on each the calls that come with it."""
    own = brute.plan_of(s)
    fresh = brute.over(own, [PLAN_FILL] * max(len(plan) for plan in [own] + [plan for plan, _ in asked]))
    calls, now = own_plan_calls(s), fresh
    cases = [calls]
    for plan, questions in asked:
        more = store_calls(now, plan) + questions
        if len(calls) + len(more) > MAX_CALLS - CLEANING_CALLS:
            calls = []
            cases.append(calls)
            more = store_calls(fresh, plan) + questions
            now = fresh
        calls += more
        now = brute.over(plan, now)
    return [Case(words_of(*s), grid_of(s), len(fresh), calls) for calls in cases]


def small_plan_set(dice):
    """A random set whose plan has a box, and at most 48 words."""
    while True:
        s = tight_set(dice, 60)
        if 1 < plan_length(s) <= 48:
            return s


def wide_plan(dice, tasks):
    """A plan of the layout with a box of each kind, and a rank of each."""
    sides = [[0x80000000 | task << 16 | dice.below(3) << 8 | dice.between(3, 255) for task in range(tasks)] for _ in range(2)]
    ranks = [kind << 28 | dice.below(1000) for kind in (9, 10)]
    return closed([0x60000000 | dice.below(16)] + sides[0] + [0x70000000] + sides[1] + ranks)


def at_edges(dice, plan, tasks, plans):
    """These plans, damaged from one, each asked at a state near that one's boxes."""
    return [(words, [locate_call(dice, tasks, edge_positions(dice, plan, tasks))]) for words in plans]


def stored_cases(dice):
    """Damaged plans of known and random sets, random plans, damaged ones for many tasks, and words at random."""
    cases = []
    small = [crossing(2), users(1, 2, 1), users(2, 3, 1), ring(2), written_set(SEVERAL_BLOCKERS[0]), Set([1], [[]] + users(1, 2, 1).tasks)]
    # These two are damaged in every way.
    unreached = [written_set(BOTH_DEAD[0]), written_set(ONLY_UNREACHED[0])]
    for s in small + [small_plan_set(dice) for _ in range(8)] + unreached:
        plan, tasks = brute.plan_of(s), len(s.tasks)
        asked = at_edges(dice, plan, tasks, damaged(dice, plan, 1000 if s in unreached else 90))
        asked += [(words, [locate_call(dice, count, [0] * 8) for count in (0, 9)]) for words in ([], plan, plan[:-1])]
        cases += question_cases(s, asked)
    least = Set([], [[]])
    plans = []
    for tasks in range(1, 9):
        plans += [(plan, all_around(dice, plan, tasks)) for plan in (random_plan(dice, tasks) for _ in range(20))]
        plans += [(words, [locate_call(dice, tasks, [1] * tasks)]) for words in (random_words(dice, tasks) for _ in range(40))]
        plans += [(mutated(dice, random_plan(dice, tasks)), [locate_call(dice, tasks, [1] * tasks)]) for _ in range(40)]
    for tasks in range(5, 9):
        plan = wide_plan(dice, tasks)
        plans += at_edges(dice, plan, tasks, damaged(dice, plan, 60))
    plan = wide_plan(dice, 8)
    plans += at_edges(dice, plan, 8, bit_changes(plan))
    return cases + question_cases(least, plans)


# --- Word lists that are refused ---


def joined(*parts):
    """Words from (kind, field) pairs; END's field is filled in where it is None."""
    words = []
    for kind, field in parts:
        words.append(kind << 28 | (len(words) if field is None else field))
    return words


def closed(words):
    """The words with an END behind them."""
    return words + [END << 28 | len(words)]


def small_product(dice):
    """Action counts whose grid is over 65,536 but small when cut to 32 bits."""
    while True:
        lengths = [2 * dice.between(60, 127) for _ in range(8)]
        product = 1
        for length in lengths:
            product *= length + 1
        if product % 2**32 <= 65536:
            return lengths


def faulty_lists(dice):
    """Lists made for each refusal, at several places, some with several faults at once."""
    d, t, c, r, e = ((kind, 0) for kind in (DEVICE, TASK, CLAIM, RELEASE, END))
    one, end = (DEVICE, 1), (END, None)
    lists = [[]]
    lists += [[0x20000000] * count for count in (4096, 4097)] + [[0] * 4097, closed([0x20000000]) + [0] * 4095]
    good = [joined(t, end), joined(one, t, c, r, end), joined(one, one, t, c, (CLAIM, 1), r, (RELEASE, 1), t, end)]
    for words in good:
        for more in ([0], [0x50000000], [0x20000000], [END << 28 | len(words)], [0xFFFFFFFF, 0x10000001]):
            lists.append(words + more)
        for kind in (0, 6, 7, 8, 9, 15):
            for place in range(len(words)):
                lists.append(words[:place] + [kind << 28 | dice.below(3)] + words[place + 1 :])
                lists.append(words[:place] + [kind << 28 | dice.bits() >> 4] + words[place:])
    lists += [joined(*parts) for parts in ([c], [r], [e], [one, c], [one, end], [end], [one, (CLAIM, 5)], [t, one, end], [one, t, c, (DEVICE, 9)])]
    for capacity in (0, 9, 10, 16, 0x0000101, 0x1000001, 0x8000000, 0xFFFFFFF):
        lists.append(joined((DEVICE, capacity), t, end))
        lists.append(joined(one, (DEVICE, capacity), t, c, r, end))
    for field in (1, 8, 0x8000000, 0xFFFFFFF):
        lists += [joined((TASK, field), end), joined(one, t, c, r, (TASK, field), end), joined(one, t, c, (TASK, field), end)]
        lists += [joined(one, t, (CLAIM, field), r, end), joined(one, t, c, (RELEASE, field), end), joined(t, (CLAIM, field), end)]
        lists += [joined(t, (END, field + 1)), joined(one, t, c, r, (END, field)), joined(one, t, c, (END, field + 3))]
    lists += [joined(t, c, end), joined(t, r, end)]
    for count in (15, 16, 17, 18):
        for capacity in (1, 9):
            lists.append(joined(*[one] * (count - 1), (DEVICE, capacity), t, end))
    for count in (7, 8, 9, 10):
        lists += [joined(one, *[t] * count, end), joined(one, *[t] * (count - 1), c, (TASK, 0), r, end), joined(one, *[t] * (count - 1), (TASK, 1), end)]
        lists += [joined(one, *[t, c, r] * count, end), joined(one, *[t, c, r] * (count - 1), t, c, end)]
    for count in (253, 254, 255, 256, 257):
        pairs = [c, r] * 129
        lists += [joined(one, t, *pairs[:count], end), joined(one, t, *pairs[:count], t, end), joined(one, t, t, *pairs[:count])]
        lists += [joined(one, t, *pairs[: count - 1], (CLAIM, 1), end), joined(one, t, *pairs[: count - 1], pairs[count], end)]
    lists += [joined(one, t, c, c), joined(one, t, c, r, r), joined(one, t, r), joined(one, t, c, t, end), joined(one, t, c, end)]
    lists += [joined(one, one, t, c, (CLAIM, 1), r, end), joined(one, one, t, c, (RELEASE, 1), end), joined(one, t, c, t, r, end)]
    lists += [joined(one), joined(t), joined(one, t, c), joined(one, t, c, r), joined(*[one] * 16), joined(one, *[t] * 8)]
    lists += [words_of(*long_tasks(lengths)) for lengths in ([254, 254, 2], [10, 58, 100], [254] * 8, [2] * 3 + [254, 254], [254, 0, 254, 0, 2], [4] * 8)]
    lists += [words_of(*long_tasks(small_product(dice))) for _ in range(3)] + [words_of(*long_tasks([254, 254, 2]))[:-1]]
    return lists


def mutated(dice, words):
    """The words with one to three changes: a bit turned, a word dropped, doubled, moved or made up."""
    words = list(words)
    for _ in range(dice.between(1, 3)):
        place = dice.below(len(words)) if words else 0
        change = dice.below(6)
        if change == 0 and words:
            words[place] ^= 1 << dice.below(32)
        elif change == 1 and words:
            del words[place]
        elif change == 2 and words:
            words.insert(place, words[place])
        elif change == 3 and words:
            words.insert(dice.below(len(words)), words.pop(place))
        elif change == 4:
            words.insert(place, dice.below(7) << 28 | dice.below(4))
        elif words:
            words[place] = dice.between(1, 5) << 28 | dice.below(4)
    return closed(words[:-1]) if words and dice.one_in(2) else words


# --- The cases ---


def plan_length(s):
    """How many words the plan has."""
    return len(brute.plan_of(s))


def fitting(dice, s, calls, finishes=False):
    """A case whose slices are long enough, exactly or with room."""
    room, more = dice.pick([0, 0, 1, 3]), dice.pick([0, 0, 1, 2])
    return Case(words_of(*s), min(MAX_MAP, grid_of(s) + room), plan_length(s) + more, calls + own_plan_calls(s), finishes)


def short_cases(dice, s):
    """Slices that are too short: by one, empty, by more; both; and a plan slice that fits exactly."""
    words, grid, plan = words_of(*s), grid_of(s), plan_length(s)
    calls = random_calls(dice, s, 4)
    return [
        Case(words, grid - 1, plan, calls),
        Case(words, dice.below(grid), dice.below(plan + 1), calls),
        Case(words, grid + dice.below(3), plan - 1, round_calls(dice, s, sum(lengths_of(s))), True),
        Case(words, grid, dice.below(plan), calls),
        Case(words, grid, plan, calls + own_plan_calls(s)),
    ]


def refused_case(dice, words):
    """Words that may be refused, with small slices and every kind of call."""
    s = brute.read_set(words, former=True)
    accepted = isinstance(s, Set)
    long_map = min(MAX_MAP, grid_of(s)) if accepted else dice.below(12)
    calls = [(BID, dice.below(9)), (AGAIN,), (ROUTE, dice.below(6)), (BID_IN_PLACE, dice.below(9))]
    long_plan = dice.below(20)
    if dice.one_in(3):
        calls.insert(0, record_call([dice.below(3)] + [0] * 7, dice.bits()))
    return Case(words, long_map, long_plan, calls + own_plan_calls(s) if accepted and plan_length(s) <= long_plan else calls)


def call_kinds(dice):
    """The kinds of calls that random sets get, one each in turn."""
    return [
        lambda s: random_calls(dice, s, dice.between(4, 24)),
        lambda s: random_calls(dice, s, dice.between(4, 24)),
        lambda s: edge_calls(dice, s),
        lambda s: spoilt_record_calls(dice, s),
        lambda s: spoilt_map_calls(dice, s),
        lambda s: wrap_calls(dice, s) + end_calls(dice, s),
        lambda s: short_route_calls(dice, s),
        lambda s: lend_calls(dice, s),
    ]


def small_cases(dice):
    """The random sets."""
    kinds = call_kinds(dice)
    cases = []
    for number in range(1040):
        s = dice.pick([random_set, tight_set])(dice, dice.pick([60, 100, 200, 200, 300, 400, 600]))
        cases.append(fitting(dice, s, kinds[number % len(kinds)](s)))
    for _ in range(240):
        s = dice.pick([random_set, tight_set])(dice, dice.pick([60, 120, 240, 400]))
        cases.append(fitting(dice, s, round_calls(dice, s, sum(lengths_of(s))), True))
    for _ in range(50):
        cases += short_cases(dice, random_set(dice, dice.pick([30, 100, 300])))
    return cases


def named_cases(dice, sets):
    """Known sets, each with rounds that finish it, and then again."""
    cases = []
    for s in sets:
        rounds = round_calls(dice, s, sum(lengths_of(s)))
        cases.append(fitting(dice, s, rounds + [(AGAIN,), (ROUTE, min(MAX_ROUTE, sum(lengths_of(s))))] + random_calls(dice, s, 6)))
    return cases


def dead_cases(dice):
    """Sets with dead states that aren't reached, with plan slices that are too short: by one word and more, and by the words of these states alone."""
    cases = []
    for text in (BOTH_DEAD[0], BOTH_DEAD[2], ONLY_UNREACHED[0], ONLY_UNREACHED[1]):
        s = written_set(text)
        plan = brute.plan_of(s)
        _, _, unreached = rank_parts(plan)
        cases += short_cases(dice, s) + [Case(words_of(*s), grid_of(s), len(plan) - len(unreached), random_calls(dice, s, 4))]
    return cases


def large_cases(dice):
    """The large sets: few calls, and a map slice too short by one for each."""
    cases = []
    for s in large_sets():
        calls = random_calls(dice, s, 6)
        cases.append(fitting(dice, s, calls))
        cases.append(Case(words_of(*s), grid_of(s) - 1, 8, calls))
    return cases


def faulty_cases(dice):
    """The lists made for each refusal, then random sets with a few changes."""
    cases = [refused_case(dice, words) for words in faulty_lists(dice)]
    cases += [refused_case(dice, mutated(dice, words_of(*random_set(dice, 60)))) for _ in range(450)]
    for _ in range(30):
        words = words_of(*random_set(dice, 60))
        cases.append(refused_case(dice, words[: dice.below(len(words))]))
    return cases


# --- Cleaning ---


def compare_cleaned(s):
    """What cleaning must leave of a set: the map, the unsafe boxes, the dead states of both kinds, and the forbidden boxes but for their devices' numbers."""
    new = brute.cleaned(s)
    if new != s:
        kept = brute.claimed_devices(s.tasks)
        assert brute.map_of(new) == brute.map_of(s), s
        assert brute.forbidden_boxes(new) == [(kept.index(device), box) for device, box in brute.forbidden_boxes(s)], s
        assert brute.unsafe_boxes(new) == brute.unsafe_boxes(s), s
        assert rank_parts(brute.plan_of(new))[1:] == rank_parts(brute.plan_of(s))[1:], s


def with_cleaning(case):
    """The case with its set as a stored one: cleaned with a word's room and more, and analysed anew before the case's calls. A set that the former rules refuse is
    only shown to the cleaner, with a slice of few words or none."""
    s = brute.read_set(case.words, former=True)
    first = [(CLEAN, len(case.words) % 4)]
    if isinstance(s, Set):
        compare_cleaned(s)
        first = [(CLEAN, len(case.words) + 1), (ANALYSE,)]
    return Case(case.words, case.map_length, case.plan_length, first + case.calls, case.finishes)


def reading_calls(dice, s):
    """Every call that reads the set, on the record as it is or another."""
    calls = [(BID, any_task(dice, s)), (BID_IN_PLACE, any_task(dice, s)), (AGAIN,), (ROUTE, dice.below(4)), (ANALYSE,)]
    if dice.one_in(2):
        calls.insert(0, record_call(dice.pick([random_positions, spoilt_positions])(dice, s), dice.bits()))
    return dice.mixed(calls)


def unclean_case(dice, s, calls, finishes=False):
    """A set with unclaimed devices: calls that bring 24, cleanings with too little room, calls again, and the cleaning; calls before the map is made and after; and a cleaning of
    the clean set, which leaves it."""
    need = len(words_of(*brute.cleaned(s)))
    first = reading_calls(dice, s) + [(CLEAN, length) for length in (0, need - 1, dice.below(need))] + reading_calls(dice, s)
    first += [(CLEAN, need + dice.pick([0, 0, 1, 2, 5])), (BID, any_task(dice, s)), (ROUTE, dice.below(4)), (ANALYSE,)]
    first += [(CLEAN, length) for length in (need - 1, need)] + reading_calls(dice, s) + own_plan_calls(s) + [record_call([0] * 8, 0)]
    compare_cleaned(s)
    return Case(words_of(*s), grid_of(s) + dice.below(2), plan_length(s) + dice.below(2), first + calls, finishes)


def each_alone(count):
    """Two tasks that claim and release so many devices one after the other, the first half of them and the others."""
    pairs = [[(CLAIM, device), (RELEASE, device)] for device in range(count)]
    return Set([1 + device % 8 for device in range(count)], [sum(pairs[: count // 2], []), sum(pairs[count // 2 :], [])])


def some_claimed(devices, claimed, tasks):
    """So many devices of differing capacities, and tasks that each claim these of them together and release them in the same order."""
    task = [(CLAIM, device) for device in claimed] + [(RELEASE, device) for device in claimed]
    return Set([1 + device % 3 for device in range(devices)], [task] * tasks)


def unclean_sets(dice):
    """Devices that no task claims in every place and number; none claimed; one of 16; a device that only one task claims, the first, a middle one or the last, with unclaimed
    devices beside it and without."""
    sets = [with_device(s, place, dice.between(1, 8)) for s in (crossing(2), ring(3), written_set(BOTH_DEAD[0])) for place in range(len(s.capacities) + 1)]
    sets += [with_device(each_alone(15), place, dice.between(1, 8)) for place in range(16)]
    sets += [some_claimed(4, claimed, 2) for count in range(4) for claimed in itertools.combinations(range(4), count)]
    sets += [some_claimed(16, (device,), 2) for device in range(16)] + [Set([8] * count, [[]] * tasks) for count, tasks in ((1, 1), (2, 3), (16, 8))]
    pair = [(CLAIM, 1), (RELEASE, 1)]
    sets += [Set([1, 1, 1], [pair if task == place else [] for task in range(3)]) for place in range(3)]
    sets += [Set([1, 1], [[(CLAIM, 0), (RELEASE, 0)]] * place + [pair] + [[(CLAIM, 0), (RELEASE, 0)]] * (2 - place)) for place in range(3)]
    return sets + [with_device(written_set(text), 1, 1) for text in (SEVERAL_BLOCKERS[0], ONLY_UNREACHED[0], ONLY_UNREACHED[6])]


def large_unclean_lists():
    """Grids over 65,536 and as large as there are with unclaimed devices, behind the others and before them; and without an END."""
    lists = []
    for lengths in ([254, 254], [254, 254, 2], [12, 70, 70], [10, 58, 100], [254] * 8):
        s = long_tasks(lengths)
        for other in (with_device(s, 1, 8), with_device(s, 0, 8), with_device(with_device(s, 0, 1), 2, 1)):
            lists += [words_of(*other), words_of(*other)[:-1]]
    return lists


def cleaning_cases(dice):
    """Sets with unclaimed devices, in order and at random; large ones; and damaged ones."""
    cases = [unclean_case(dice, s, random_calls(dice, s, 6)) for s in unclean_sets(dice)]
    for _ in range(100):
        s = unclean_set(dice, dice.pick([30, 60, 120, 240]))
        cases.append(unclean_case(dice, s, edge_calls(dice, s)))
    for _ in range(30):
        s = unclean_set(dice, 120)
        cases.append(unclean_case(dice, s, round_calls(dice, s, sum(lengths_of(s))), True))
    for words in large_unclean_lists():
        cases.append(Case(words, 3, 3, [(BID, 0), (AGAIN,), (ROUTE, 2), (CLEAN, 3), (CLEAN, min(MAX_CLEAN, len(words))), (ANALYSE,), (BID, 0), (AGAIN,), (ROUTE, 2)]))
    for _ in range(150):
        cases.append(with_cleaning(refused_case(dice, mutated(dice, words_of(*unclean_set(dice, 60))))))
    return cases


# --- Parts per thousand ---


def padded_ring(holds):
    """A ring in which each philosopher also holds a device of its own, so many times between its two claims and so many times at its end: the former make many states
    unsafe, the latter make them few among many."""
    count = len(holds)
    tasks = []
    for i, (between, after) in enumerate(holds):
        own = [(CLAIM, count + i), (RELEASE, count + i)]
        tasks.append([(CLAIM, i)] + own * between + [(CLAIM, (i + 1) % count), (RELEASE, i), (RELEASE, (i + 1) % count)] + own * after)
    return Set([1] * (2 * count), tasks)


# Two large grids with nearly all states unsafe, and smaller ones of two to five tasks, with one unsafe state of thousands among them.
PADDED = [
    ((125, 0), (125, 0)), ((17, 0), (17, 0), (17, 0)), ((0, 20), (0, 20)), ((2, 40), (3, 39)), ((5, 30), (5, 30)), ((10, 10), (11, 9)), ((4, 0), (4, 0)),
    ((3, 0), (5, 1)), ((0, 20), (20, 0)), ((2, 0), (2, 0), (2, 0)), ((1, 2), (3, 0), (2, 1)), ((1, 0),) * 4, ((1, 0),) * 5,
]  # fmt: skip


def crowded_set(dice):
    """A random set with 66 unsafe states or more: 1,000 times their number takes over 16 bits."""
    while True:
        s = deep_set(dice, 4000)
        if len(brute.unsafe_states(s, brute.permitted_states(s))) >= 66:
            return s


def counted_cases(dice):
    """Sets with many unsafe states and with few among many: in map slices that fit, that are longer by a little and by far, and with a plan slice too short by one word."""
    cases = []
    for s in [padded_ring(holds) for holds in PADDED] + [crowded_set(dice) for _ in range(20)]:
        words, grid, plan = words_of(*s), grid_of(s), plan_length(s)
        calls = random_calls(dice, s, 4)
        cases.append(Case(words, grid, plan, calls + own_plan_calls(s)))
        cases.append(Case(words, grid + dice.pick([1, 3, 255, 256]), plan + 1, calls))
        cases.append(Case(words, MAX_MAP, plan, calls))
        cases.append(Case(words, grid, plan - 1, calls))
    return cases


# --- Settings, and counts of grants ---


def small_settings(dice):
    """Settings with which shares are spent and windows close."""
    return Settings(dice.pick([1, 1, 1, 2, 2, 3, 4]), dice.pick([1, 2, 2, 3, 3, 4, 5, 8]))


def any_settings(dice):
    """Mostly small settings, the largest often."""
    return Settings(255, 255) if dice.one_in(3) else small_settings(dice)


def refused_settings(dice):
    """Settings of which one or both are outside 1 to 255."""
    share, window = (dice.pick([0, 256, 257, 0x10001, 0xFFFFFFFF]) for _ in range(2))
    good = any_settings(dice)
    return dice.pick([Settings(share, good.window), Settings(good.share, window), Settings(share, window)])


def strewn_counts(dice, tasks, total):
    """Counts of so many tasks that add up to this."""
    counts = [0] * 8
    for _ in range(total):
        counts[dice.below(tasks)] += 1
    return counts


def some_counts(dice, tasks, window):
    """Counts below the window for the most part, and at it now and then; and now and then one of an absent task."""
    counts = strewn_counts(dice, tasks, window if dice.one_in(8) else dice.pick([window - 1, dice.below(window)]))
    if tasks < 8 and dice.one_in(8):
        counts[dice.between(tasks, 7)] = dice.pick([1, 255])
    return counts


def with_settings(dice, case):
    """The case with settings in its bids: of one choice, or of three that change from bid to bid, and now and then refused ones. Rounds keep theirs. Where there are none,
    and the set is accepted, some records get counts too."""
    s = brute.read_set(case.words, former=True)
    rounds = any(call[0] == ROUNDS for call in case.calls)
    choice = [any_settings(dice) for _ in range(1 if rounds else dice.pick([1, 1, 1, 3]))]
    calls = []
    for kind, a, b, c in case.calls:
        if kind in (BID, BID_IN_PLACE):
            calls.append((kind, a) + (refused_settings(dice) if dice.one_in(24) else dice.pick(choice)))
        elif kind == ROUNDS:
            calls.append((kind, a, b, c | choice[0].share << 8 | choice[0].window << 16))
        else:
            calls.append((kind, a, b, c))
        if kind == RECORD and not rounds and isinstance(s, Set) and dice.one_in(3):
            calls.append(counts_call(some_counts(dice, len(s.tasks), dice.pick(choice).window)))
    return Case(case.words, case.map_length, case.plan_length, calls, case.finishes)


def shared_set(dice, limit):
    """A clean random set with an open state in which two tasks or more would be granted."""
    while True:
        s = brute.cleaned(dice.pick([deep_set, wide_set, loose_set])(dice, limit))
        if forks_of(s):
            return s


def forks_of(s):
    """The open states in which two tasks or more would be granted, each with these tasks."""
    bytes_ = brute.map_of(s)
    going = [(state, brute.onto_open(s, bytes_, state)) for state, byte in zip(brute.states_of(s), bytes_) if byte == brute.OPEN]
    return [(state, tasks) for state, tasks in going if len(tasks) > 1]


def at_record(dice, state, counts):
    """Calls that make a record of this state and these counts."""
    return [record_call(list(state) + [0] * (8 - len(state)), dice.bits()), counts_call(counts)]


def bid_call(dice, task, settings):
    return (dice.pick([BID, BID_IN_PLACE]), task) + settings


def eager_task(dice, count):
    """One task over and over in a round of so many."""
    return [dice.below(count)] * (8 - count)


def kept_round_calls(dice, s):
    """Rounds that finish the set, and an again, under one pair of settings after the other; in most of the rounds one task bids far more often than the others."""
    calls = []
    pairs = [(share, window) for share in range(1, 5) for window in range(1, 5)] + [(255, 255), (1, 255), (254, 255), (255, 1), (2, 7), (9, 10)]
    for share, window in dice.mixed(pairs)[:8]:
        rounds = round_calls(dice, s, sum(lengths_of(s)), dice.pick([one_more, eager_task, eager_task]))
        calls += [(kind, times, tasks, count | share << 8 | window << 16) for kind, times, tasks, count in rounds] + [(AGAIN,)]
    return calls


def long_calls(dice, s):
    """A list across many windows: bids of unfinished tasks, and an again whenever there is none. The settings are kept, or change between two."""
    choice = [small_settings(dice) for _ in range(dice.pick([1, 1, 2]))]
    bytes_, record, calls = brute.map_of(s), FRESH, []
    for _ in range(60):
        left = [task for task, length in enumerate(lengths_of(s)) if record.positions[task] < length]
        if left:
            task, settings = dice.pick(left), dice.pick(choice)
            calls.append(bid_call(dice, task, settings))
            _, record = brute.bid_on(s, bytes_, record, task, settings)
        else:
            calls.append((AGAIN,))
            _, record = brute.again(words_of(*s), record)
    return calls


def edge_count_calls(dice, s):
    """Where several tasks would be granted: a bid of one that has had its share, one grant less or more, with another's count at the share or below it, and all counts
    together at the window, one below it or more."""
    calls = []
    for _ in range(6):
        state, going = dice.pick(forks_of(s))
        task, other, *_ = dice.mixed(going)
        share = dice.pick([1, 1, 2, 2, 3, 5, 127, 128])
        counts = strewn_counts(dice, len(s.tasks), dice.pick([0, 0, 1, 2]))
        counts[task], counts[other] = share + dice.pick([-1, 0, 0, 0, 1]), dice.pick([0, share - 1, share])
        window = min(255, sum(counts) + dice.pick([0, 1, 1, 1, 2, 2, 20]))
        calls += at_record(dice, state, counts) + [bid_call(dice, task, Settings(share, max(1, window)))]
    return calls


def settings_calls(dice, s):
    """Every pair of these settings, at the start; half of them with the first task's share spent or its counts near the largest window."""
    numbers = (0, 1, 2, 254, 255, 256, 257, 0x10000, 0x10001, 0x1000001, 0x80000000, 0xFFFFFFFF)
    calls = []
    for settings in itertools.product(numbers, numbers):
        counts = dice.pick([[0] * 8, [1] + [0] * 7, [254] + [0] * 7, [253, 1] + [0] * 6])
        calls += at_record(dice, [0] * len(s.tasks), counts) + [bid_call(dice, 0, settings)]
    return calls


def sum_calls(dice, s):
    """Counts that add up to more than 255 and are small in eight bits: 16 in a bid, and nothing to an again or a route."""
    tasks = len(s.tasks)
    calls = []
    for total in (254, 255, 256, 257, 511, 512, 2040):
        each = [total // tasks + (task < total % tasks) for task in range(tasks)]
        counts = [min(255, count) for count in dice.mixed(each)] + [0] * (8 - tasks)
        calls += at_record(dice, [0] * tasks, counts) + [bid_call(dice, dice.below(tasks), Settings(dice.pick([1, 255]), 255)), (AGAIN,), (ROUTE, dice.below(4))]
    return calls


def faulty_record_calls(dice, s, window):
    """A record that a bid with this window refuses: for a position, a state that isn't open, a count of an absent task, or the sum of the counts."""
    tasks = len(s.tasks)
    shut = [state for state, byte in zip(brute.states_of(s), brute.map_of(s)) if byte != brute.OPEN]
    kind = dice.below(4)
    if kind == 0:
        return at_record(dice, spoilt_positions(dice, s), [0] * 8)
    if kind == 1 and shut:
        return at_record(dice, dice.pick(shut), [0] * 8)
    if kind == 2 and tasks < 8:
        return at_record(dice, [0] * tasks, [0] * tasks + dice.mixed([1] + [0] * (7 - tasks)))
    return at_record(dice, [0] * tasks, strewn_counts(dice, tasks, window))


def order_calls(dice, s):
    """Every choice of faults in one bid: a map that is too short, settings that are refused, a record that is, a task that is none's."""
    calls = []
    for short, setting, record, task in itertools.product((False, True), repeat=4):
        good = small_settings(dice)
        calls.append((LEND, grid_of(s) - short))
        calls += faulty_record_calls(dice, s, good.window) if record else at_record(dice, [0] * len(s.tasks), [0] * 8)
        calls.append(bid_call(dice, dice.pick([len(s.tasks), 8, 9]) if task else dice.below(len(s.tasks)), refused_settings(dice) if setting else good))
    return calls


def again_and_route_calls(dice, s):
    """Agains and routes with counts of the set's tasks, which they don't look at, and with one of an absent task, at every kind of state and on a map that is too short."""
    bytes_ = dict(zip(brute.states_of(s), brute.map_of(s)))
    tasks, room = len(s.tasks), min(MAX_ROUTE, sum(lengths_of(s)))
    states = [lengths_of(s), (0,) * tasks] + [dice.pick(some) for some in ([state for state in bytes_ if bytes_[state] == byte] for byte in range(4)) if some]
    calls = []
    for length in (grid_of(s), grid_of(s) - 1):
        calls.append((LEND, length))
        for state in states:
            counts = [dice.pick([0, 1, 255]) for _ in range(tasks)] + [0] * (8 - tasks)
            calls += at_record(dice, state, counts) + [(ROUTE, room), (AGAIN,)]
            if tasks < 8:
                counts[dice.between(tasks, 7)] = dice.pick([1, 255])
                calls += at_record(dice, state, counts) + [(ROUTE, room), (AGAIN,)]
    return calls


def other_byte_calls(dice, s):
    """Bids of a task that has had its share, where another's next state has any byte; and of that other one."""
    calls = []
    for _ in range(5):
        state, going = dice.pick(forks_of(s))
        task, other, *_ = dice.mixed(going)
        settings = Settings(dice.pick([1, 2]), 9)
        counts = [0] * 8
        counts[task] = settings.share
        rank = brute.rank_of(s, brute.next_state(state, other))
        calls.append((POKE, rank, dice.pick([1, 2, 3, 4, 5, 128, 255])))
        for bidder in (task, other):
            calls += at_record(dice, state, counts) + [bid_call(dice, bidder, settings)]
        calls.append((POKE, rank, brute.OPEN))
    return calls


def share_cases(dice):
    """Fair shares: each kind of the calls above on known sets and on random ones."""
    known = [crossing(2), crossing(3), ring(3), users(1, 3, 2), users(2, 3, 1), users(8, 4, 1), users(8, 8, 1), apart([4, 4, 4])]
    kinds = [(kept_round_calls, 30), (long_calls, 25), (edge_count_calls, 40), (other_byte_calls, 25)]
    kinds += [(settings_calls, 2), (sum_calls, 8), (order_calls, 12), (again_and_route_calls, 12)]
    cases = []
    for make, count in kinds:
        for number in range(count):
            s = known[number] if number < len(known) else shared_set(dice, dice.pick([30, 60, 120, 200]))
            cases.append(Case(words_of(*s), grid_of(s), plan_length(s), make(dice, s)))
    return cases


# --- Trials ---


def absent_task(dice, s):
    """A number that is no task's."""
    return dice.pick([len(s.tasks), 8, 9, 128, 255])


def whole_order(dice, s):
    """An order that names every task, some more than once, and now and then one far more often."""
    tasks = len(s.tasks)
    more = [dice.below(tasks) for _ in range(dice.below(4))] + [dice.below(tasks)] * dice.pick([0, 0, 0, 3, 9])
    return dice.mixed(list(range(tasks)) + more)


def few_order(dice, s):
    """An order of a few tasks, which may leave out others."""
    return [dice.below(len(s.tasks)) for _ in range(dice.between(1, 5))]


def any_order(dice, s):
    return dice.pick([whole_order, whole_order, few_order])(dice, s)


def long_order(dice, s, length):
    return [dice.below(len(s.tasks)) for _ in range(length)]


def absent_order(dice, s):
    """An order with an absent task or two in it, or behind it."""
    order = any_order(dice, s)
    for _ in range(dice.pick([1, 1, 2])):
        order.insert(dice.below(len(order) + 1), absent_task(dice, s))
    return order


def unreached_order(dice, s):
    """An absent task behind as many rounds as the set has actions, or as there is room for: no bid of the first round reaches it."""
    return (whole_order(dice, s) * sum(lengths_of(s)))[:254] + [absent_task(dice, s)]


def too_long_order(dice, s):
    """An order that is too long, by one place and by more; in half of them an absent task stands before the place 255, there or behind it."""
    order = long_order(dice, s, dice.pick([256, 257, 300, 511, 512, 513]))
    if dice.one_in(2):
        order[dice.pick([0, 128, 253, 254, 255, -1])] = absent_task(dice, s)
    return order


def faulty_order(dice, s):
    """An order that is refused."""
    return dice.pick([lambda dice, s: [], absent_order, absent_order, unreached_order, too_long_order])(dice, s)


def some_rounds(dice, s):
    """No round, a few, about as many as the set has actions, or the most."""
    actions = sum(lengths_of(s))
    return dice.pick([0, 1, 1, 2, 3, actions, actions + 1, dice.below(actions + 2), MAX_ROUNDS])


def bids_home(s, order, settings):
    """The tasks of the bids that a trial makes on the set's own map, in as many rounds as there are actions."""
    return [task for task, _ in brute.bids_tried(s, brute.map_of(s), order, sum(lengths_of(s)), settings)]


def spoilt_bytes(dice, s):
    """A few ranks at open states or a step behind them, each with another byte."""
    bytes_, spoilt = brute.map_of(s), {}
    for _ in range(dice.between(1, 3)):
        state = dice.pick([state for state, byte in zip(brute.states_of(s), bytes_) if byte == brute.OPEN])
        left = [task for task, length in enumerate(lengths_of(s)) if state[task] < length]
        if left:
            state = brute.next_state(state, dice.pick(left))
        spoilt[brute.rank_of(s, state)] = dice.pick([0, 1, 2, 3, 4, 5, 128, 255])
    return spoilt


def laid(order):
    """Calls that make this the order."""
    calls = [(PLACE, place) + eight_words(order[place : place + 8]) for place in range(0, len(order), 8)]
    return calls + [(ORDER, len(order))]


def trial_call(rounds, settings):
    return (TRIAL, rounds) + settings


def own_map_trials(dice, s):
    """Trials on the set's own map, with bids between them: neither knows of the other. The most rounds come only with an order that names every task."""
    calls = []
    for _ in range(8):
        order = any_order(dice, s)
        rounds = some_rounds(dice, s)
        if set(order) != set(range(len(s.tasks))):
            rounds = min(rounds, 40)
        calls += laid(order) + [trial_call(rounds, any_settings(dice)), bid_call(dice, dice.below(len(s.tasks)), any_settings(dice))]
    return calls


def ending_trials(dice, s):
    """Orders of the very bids that bring every task home, without the last of them and with more behind them, in one round and in two: every task is finished with a
    round's last bid, before it, and only in the next."""
    calls = []
    for settings in (any_settings(dice), small_settings(dice)):
        bids = bids_home(s, whole_order(dice, s), settings)
        more = few_order(dice, s)
        for order in (bids, bids[:-1], bids + more[:1], bids + more):
            if 1 <= len(order) <= 255:
                calls += laid(order) + [trial_call(rounds, settings) for rounds in (1, 2)]
    return calls


def faulty_order_trials(dice, s):
    """Orders that are refused, and some that aren't, of the greatest length among them; no rounds now and then."""
    calls = []
    for _ in range(6):
        calls += laid(faulty_order(dice, s)) + [trial_call(dice.pick([0, 1, 2]), any_settings(dice))]
    for length in (254, 255):
        calls += laid(long_order(dice, s, length)) + [trial_call(dice.pick([0, 1, 2]), any_settings(dice))]
    return calls


def length_trials(dice, s):
    """Orders of task 0 alone, of every length near the greatest and of some that are right when cut to 8 or 16 bits; then an absent task at places around 255."""
    calls = []
    for length in (0, 1, 2, 254, 255, 256, 257, 511, 512, 513, 0xFFFF, 0x10000, 0x10001, MAX_ORDER):
        calls += [(ORDER, length)] + [trial_call(rounds, any_settings(dice)) for rounds in (0, 1)]
    for place in (257, 256, 255, 254, 253, 128, 8, 1, 0):
        calls.append((PLACE, place) + eight_words([absent_task(dice, s)]))
        calls += [call for length in (place, place + 1, place + 2) for call in ((ORDER, length), trial_call(1, any_settings(dice)))]
    return calls


def choice_trials(dice, s):
    """Every choice of what a trial may be refused with, from 13 to 18, and no rounds: a map that is too short, settings, an order, the start's byte, a next state's."""
    start = (0,) * len(s.tasks)
    first = dice.pick([task for task, length in enumerate(lengths_of(s)) if length > 0])
    rank = brute.rank_of(s, brute.next_state(start, first))
    own_bytes, next_bytes = [0, dice.pick([1, 2, 3, 4, 255])], [brute.map_of(s)[rank], dice.pick([4, 5, 128, 255])]
    good = [first] + whole_order(dice, s)[:7]
    bad = good[:6] + [absent_task(dice, s)]
    calls = []
    for short, setting, order, own, following, none in itertools.product((False, True), repeat=6):
        calls += [(LEND, grid_of(s) - short), (POKE, 0, own_bytes[own]), (POKE, rank, next_bytes[following])]
        calls += laid(bad if order else good) + [trial_call(0 if none else 2, refused_settings(dice) if setting else small_settings(dice))]
    return calls


def settings_trials(dice, s):
    """Every pair of these settings, with no rounds, with one and with three."""
    numbers = (0, 1, 2, 3, 254, 255, 256, 257, 0x10001, 0xFFFFFFFF)
    return laid(whole_order(dice, s)) + [trial_call(dice.pick([0, 1, 3]), Settings(*pair)) for pair in itertools.product(numbers, numbers)]


def spoilt_map_trials(dice, s):
    """Trials on a map with a few bytes replaced: they end with 18 or 16, or go other ways."""
    bytes_, calls = brute.map_of(s), []
    for _ in range(8):
        spoilt = spoilt_bytes(dice, s)
        calls += [(POKE, rank, byte) for rank, byte in spoilt.items()]
        calls += laid(any_order(dice, s)) + [trial_call(dice.pick([1, 2, 5, 40]), any_settings(dice))]
        calls += [(POKE, rank, bytes_[rank]) for rank in spoilt]
    return calls


def other_map_trials(dice, s):
    """Trials on maps that are no set's: bytes 0 to 3 in any place, but for the start's."""
    calls = []
    for _ in range(2):
        calls += [(POKE, rank, dice.pick([0, 0, 0, 1, 2, 3])) for rank in range(1, grid_of(s))]
        for _ in range(4):
            calls += laid(any_order(dice, s)) + [trial_call(dice.pick([1, 3, 9, 30]), any_settings(dice))]
    return calls


def idle_trials(dice, s):
    """Sets without actions, which make no bid: whatever the start's byte is, with right and wrong orders and settings, and on a map that is too short."""
    calls = []
    for byte, lent in itertools.product((0, 1, 3, 4, 255), (1, 0)):
        calls += [(LEND, lent), (POKE, 0, byte)]
        for order in (whole_order(dice, s), faulty_order(dice, s)):
            calls += laid(order[:12]) + [trial_call(dice.pick([0, 1, MAX_ROUNDS]), settings) for settings in (any_settings(dice), refused_settings(dice))]
    return calls


# Trials without an end, answered Share spent, Busy, Held and Finished over 65,535 times, and one with a long order. In the third set and the fourth the last task never bids and
# would be granted, so that no other gets more than its share.
ENDLESS = [
    (crossing(2), [0], 65535, Settings(3, 255)),
    (crossing(2), [0, 0], 65535, Settings(1, 2)),
    (Set([1, 1], [[(CLAIM, 0), (RELEASE, 0)]] * 2 + [[(CLAIM, 1), (RELEASE, 1)]]), [0, 1, 1], 33000, Settings(1, 255)),
    (Set([1, 1, 1], crossing(2).tasks + [[(CLAIM, 2), (RELEASE, 2)]]), [1, 0, 0], 33000, Settings(1, 3)),
    (users(2, 3, 1), [2, 1], 65535, Settings(255, 255)),
    (apart([4, 4, 4]), [0, 2, 2] * 85, 400, Settings(2, 9)),
]


def endless_cases():
    """Each with the rounds at which a number takes one bit more, and with the most."""
    cases = []
    for s, order, most, settings in ENDLESS:
        calls = laid(order) + [trial_call(rounds, settings) for rounds in (255, 256, 257, most)]
        cases.append(Case(words_of(*s), grid_of(s), plan_length(s), calls))
    return cases


def large_trial_cases(dice):
    """The longest task, eight tasks, and grids of over 65,000 states, whose last ranks take 16 bits: brought home, and stopped at a byte over 3 near the end."""
    cases = []
    for s in (long_tasks([254]), users(8, 8, 1), users(1, 8, 1), apart([254, 254]), apart([12, 70, 70])):
        late = brute.rank_of(s, lengths_of(s)) - dice.below(2)
        calls = laid(whole_order(dice, s)) + [trial_call(sum(lengths_of(s)), settings) for settings in (Settings(255, 255), small_settings(dice))]
        calls += [(POKE, late, 4)] + calls[-2:]
        cases.append(Case(words_of(*s), grid_of(s), plan_length(s), calls))
    return cases


def refused_trial_cases(dice):
    """Words that may be refused, with settings and orders that may be too; and unclean sets, before they are cleaned and after."""
    cases = []
    for words in dice.mixed(faulty_lists(dice))[:40] + [mutated(dice, words_of(*random_set(dice, 60))) for _ in range(30)]:
        calls = [trial_call(1, any_settings(dice)), trial_call(0, refused_settings(dice))]
        cases.append(Case(words, dice.below(12), 0, calls + laid([0, dice.below(9)]) + [trial_call(2, any_settings(dice))]))
    for _ in range(10):
        s = unclean_set(dice, 60)
        calls = laid(whole_order(dice, s)) + [trial_call(4, any_settings(dice))]
        cases.append(Case(words_of(*s), grid_of(s), 0, calls + [(CLEAN, MAX_CLEAN)] + calls + [(ANALYSE,)] + calls))
    return cases


def trial_cases(dice):
    """Trials: each kind of the calls above on known sets and on random ones, then those with sets of their own."""
    known = [crossing(2), crossing(3), ring(3), users(1, 3, 2), users(2, 3, 1), users(8, 4, 1), apart([4, 4, 4]), Set([1], [[], [(CLAIM, 0), (RELEASE, 0)]])]
    kinds = [(own_map_trials, 60), (ending_trials, 20), (spoilt_map_trials, 50), (other_map_trials, 16), (faulty_order_trials, 20), (length_trials, 2)]
    kinds += [(choice_trials, 5), (settings_trials, 2)]
    cases = []
    for make, count in kinds:
        for number in range(count):
            s = known[number] if number < len(known) else shared_set(dice, dice.pick([30, 60, 120]))
            cases.append(Case(words_of(*s), grid_of(s) + dice.pick([0, 0, 3]), plan_length(s), make(dice, s)))
    for tasks in (1, 2, 8):
        s = Set([], [[]] * tasks)
        cases.append(Case(words_of(*s), 1, 1, idle_trials(dice, s)))
    return cases + endless_cases() + large_trial_cases(dice) + refused_trial_cases(dice)


# --- Units ---

# Sets with claims of several units, in the notation above: two radio patches and a call, boxes of two tasks and of three for one device, a state whose first box is of fewer
# tasks than the first that exceed, holds of differing units in one task, and tasks that wait for each other's units.
UNIT_SETS = [
    "3 +0x2-0 +0x2-0 +0-0",
    "2 +0x2-0+0-0 +0-0 +0-0",
    "3 +0-0 +0x2-0 +0-0 +0x3-0",
    "3 +0-0 +0-0 +0x3-0",
    "5 +0x5-0+0-0+0x3-0 +0x2-0+0x4-0",
    "33 +0x2+1x2-1-0 +1x2+0x2-0-1",
    "43 +0x3+1-1-0 +1x3+0x2-0-1",
    "33 +0+1x2-1-0 +1x2+0x3-0-1",
    "222 +0x2+1-0-1 +1x2+2-1-2 +2x2+0-2-0",
    "35 +0+1x3-0-1 +1x3+0-1-0 +0x2+1x2-1-0",
    "8 +0-0 +0x8-0 +0x2-0 +0x7-0",
    "18 +0+1x8-1-0 +1x8+0-0-1",
]

# Sets in which an unsafe box would be another if a blocker were the box of the first tasks by number that exceed, or the last box. They are very rare among random ones.
UNIT_BLOCKERS = [
    "255 +0x2+1x4-0-1 +2x5+1+0x2-0-1-2 +1x2+2x3-1-2",
    "464 +0+2+1x6-1-2-0 +1x5+2x2-2-1 +1x2-1+2x3+0x4-0-2",
    "654 +1x2+0x2+2x3-2-0-1 +1x3+2+0x6-0-2-1 +2x3+1x3-1-2",
    "246 +2x5+0+1x3-1-2-0 +1x4+0+2-0-2-1 +2+0x2+1x2-0-2-1",
    "446 +1x2+0+2x2-0-2-1 +1x2-1+0x2+1-1-0 +2x6+1x2+0x3-0-1-2",
    "353 +2x2+1+0x3-2-1-0 +2-2 +0x2+1x4-1-0 +1x3+2x3-2-1",
    "245 +2+1x3+0-1-2-0 +0+2x3+1x4-0-2-1 +1+0+2x2-0-2-1",
]


def unit_users(capacity, units):
    """One device, and a task for each of these numbers that claims and releases it with so many units."""
    return Set([capacity], [[claim(0, count), (RELEASE, 0)] for count in units])


def unit_sets():
    """Those sets; every choice of units of a device of capacity 3 for three tasks, falling and rising ones of the largest capacity for six."""
    sets = [written_set(text) for text in UNIT_SETS + UNIT_BLOCKERS]
    sets += [unit_users(3, units) for units in itertools.product((1, 2, 3), repeat=3)]
    return sets + [unit_users(8, units) for units in ((1, 2, 3, 4, 5, 6), (6, 5, 4, 3, 2, 1), (4, 4, 1, 1, 4, 8), (8, 1, 7, 2, 6, 3))]


def some_units(dice, capacity):
    """A number of units that a device of this capacity has; often one, or all."""
    return dice.pick([1, capacity, dice.between(1, capacity), dice.between(1, capacity)])


def with_units(dice, s):
    """The set with other capacities, and other units in its claims."""
    capacities = [dice.pick([1, 2, 2, 3, 3, 4, 5, 8]) for _ in s.capacities]
    tasks = [[claim(device, some_units(dice, capacities[device])) if kind == CLAIM else (kind, device) for kind, device in task] for task in s.tasks]
    return Set(capacities, tasks)


def unit_set(dice, limit):
    """A random set with units whose grid is at most `limit`."""
    return with_units(dice, random_set(dice, limit))


def tight_unit_set(dice, limit):
    """Of eight random sets with units the first with an unsafe state that is not dead, or else the last."""
    for _ in range(8):
        s = with_units(dice, deep_set(dice, limit))
        if brute.UNSAFE in brute.map_of(s):
            break
    return s


def box_sizes(s):
    """For each device how many tasks meet in its forbidden boxes: the numbers that there are. A side that is a hold begins after 0."""
    sizes = [set() for _ in s.capacities]
    for device, box in brute.forbidden_boxes(s):
        sizes[device].add(sum(low > 0 for low, _ in box))
    return sizes


def sized_set(dice, limit):
    """A random set with units that has a device with boxes of several sizes."""
    while True:
        s = with_units(dice, wide_set(dice, limit))
        if any(len(sizes) > 1 for sizes in box_sizes(s)):
            return s


def unclean_unit_set(dice, limit):
    return with_units(dice, unclean_set(dice, limit))


def shared_unit_set(dice, limit):
    """A clean random set with units and an open state in which two tasks or more would be granted."""
    while True:
        s = brute.cleaned(unit_set(dice, limit))
        if forks_of(s):
            return s


def one_claim(capacity, units, device=0):
    """The words of a set with one task, which claims a device with so many units and releases it."""
    return words_of([1] * device + [capacity], [[claim(device, units), (RELEASE, device)]])


# What a CLAIM can be refused with, the first that counts in front.
CLAIM_FAULTS = (5, 6, 7, 28, 8)


def claim_with(faults, unused=1):
    """Words whose last is a CLAIM of device 0 with these of its faults: 6 for unused bits, 28 for four units of three. Before any TASK nothing is held, and no action is
    the 256th."""
    held = [CLAIM << 28] if 8 in faults else []
    others = [CLAIM << 28 | 1, RELEASE << 28 | 1] * 128
    actions = [TASK << 28] + held + (others[: 255 - len(held)] if 7 in faults else [])
    last = CLAIM << 28 | (unused << 24 if 6 in faults else 0) | (3 << 16 if 28 in faults else 0)
    return [DEVICE << 28 | 3, DEVICE << 28 | 1] + ([] if 5 in faults else actions) + [last]


def faults_together():
    """Every choice of faults that one CLAIM can have."""
    choices = [choice for count in range(6) for choice in itertools.combinations(CLAIM_FAULTS, count)]
    return [choice for choice in choices if 5 not in choice or not {7, 8} & set(choice)]


def turned_bits(words):
    """The words with any one bit of a field turned in a CLAIM or a RELEASE."""
    places = [place for place, word in enumerate(words) if brute.kind_of(word) in (CLAIM, RELEASE)]
    return [words[:place] + [words[place] ^ 1 << bit] + words[place + 1 :] for place in places for bit in range(28)]


def unit_lists(dice):
    """Claims of every number of units near the capacity and near what their bits hold; every choice of faults in one CLAIM; each bit of claims and releases turned."""
    lists = []
    for capacity in range(1, 9):
        for units in sorted({1, capacity, capacity + 1, 9, 128, 255, 256}):
            lists.append(one_claim(capacity, units, dice.pick([0, 0, 1, 15])))
    for faults in faults_together():
        words = claim_with(faults, 1 << dice.below(4))
        lists += [words, closed(words)]
    lists += [closed(one_claim(3, units)) for units in (3, 4, 256)]
    lists += turned_bits(words_of([3, 5, 8], [[claim(1, 2), (CLAIM, 2), (RELEASE, 2), (RELEASE, 1)]]))
    return lists


def turned(dice, words):
    """The words with one of bits 12 to 27 of an action turned."""
    places = [place for place, word in enumerate(words) if brute.kind_of(word) in (CLAIM, RELEASE)]
    if not places:
        return words
    place = dice.pick(places)
    return words[:place] + [words[place] ^ 1 << dice.between(12, 27)] + words[place + 1 :]


def damaged_unit_words(dice):
    """The words of a set with units, damaged: in the parts of an action, anywhere, or in both."""
    words = words_of(*dice.pick([unit_set, unclean_unit_set])(dice, 60))
    return dice.pick([turned, mutated, lambda dice, words: mutated(dice, turned(dice, words))])(dice, words)


def random_unit_cases(dice):
    """Random sets with units, with every kind of calls, rounds, and slices that are too short."""
    kinds = call_kinds(dice)
    cases = []
    for number in range(160):
        s = dice.pick([unit_set, tight_unit_set, sized_set])(dice, dice.pick([60, 100, 200, 300, 400]))
        cases.append(fitting(dice, s, kinds[number % len(kinds)](s)))
    for _ in range(50):
        s = dice.pick([unit_set, tight_unit_set, sized_set])(dice, dice.pick([60, 120, 240]))
        cases.append(fitting(dice, s, round_calls(dice, s, sum(lengths_of(s))), True))
    for _ in range(8):
        cases += short_cases(dice, unit_set(dice, dice.pick([30, 100, 300])))
    return cases


def unit_plan_cases(dice):
    """Plans of sets with units that are damaged."""
    cases = []
    for text in UNIT_SETS[1:3]:
        s = written_set(text)
        plan = brute.plan_of(s)
        cases += question_cases(s, at_edges(dice, plan, len(s.tasks), damaged(dice, plan, 30)))
    return cases


def large_unit_cases(dice):
    """Eight tasks, and large grids, with units."""
    cases = []
    for s in (unit_users(8, range(1, 9)), unit_users(8, [3] * 8), with_units(dice, ring(5)), with_units(dice, apart([254, 254])), with_units(dice, apart([12, 70, 70]))):
        cases.append(Case(words_of(*s), grid_of(s), plan_length(s), random_calls(dice, s, 6)))
    return cases


def unclean_unit_cases(dice):
    """Sets with units and with devices that no task claims."""
    cases = []
    for text in UNIT_SETS:
        s = written_set(text)
        cases.append(unclean_case(dice, with_device(s, dice.below(len(s.capacities) + 1), dice.between(1, 8)), random_calls(dice, s, 4)))
    for _ in range(30):
        s = unclean_unit_set(dice, dice.pick([30, 60, 120]))
        cases.append(unclean_case(dice, s, edge_calls(dice, s)))
    for _ in range(8):
        s = unclean_unit_set(dice, 120)
        cases.append(unclean_case(dice, s, round_calls(dice, s, sum(lengths_of(s))), True))
    return cases


def unit_service_cases(dice):
    """Fair shares and trials on sets with units."""
    known = [written_set(text) for text in (UNIT_SETS[0], UNIT_SETS[5], UNIT_SETS[8])]
    kinds = [(kept_round_calls, 8), (long_calls, 6), (edge_count_calls, 6), (other_byte_calls, 6), (again_and_route_calls, 5)]
    kinds += [(own_map_trials, 10), (ending_trials, 5), (spoilt_map_trials, 8), (other_map_trials, 4)]
    cases = []
    for make, count in kinds:
        for number in range(count):
            s = known[number] if number < len(known) else shared_unit_set(dice, dice.pick([30, 60, 120]))
            cases.append(Case(words_of(*s), grid_of(s), plan_length(s), make(dice, s)))
    return cases


def unit_cases(dice):
    """Claims of several units: known sets, random ones, unclean ones, damaged words and plans, large sets; then shares and trials, which bring settings of their own."""
    cases = named_cases(dice, unit_sets()) + random_unit_cases(dice) + unit_plan_cases(dice) + large_unit_cases(dice)
    cases += [refused_case(dice, words) for words in unit_lists(dice)] + [refused_case(dice, damaged_unit_words(dice)) for _ in range(150)]
    cases = [with_cleaning(case) for case in cases] + unclean_unit_cases(dice)
    return [with_settings(dice, case) for case in cases] + unit_service_cases(dice)


def all_cases():
    dice, shares = Dice(SEED), Dice(SHARE_SEED)
    cases = named_cases(dice, named_sets()) + dead_cases(dice) + small_cases(dice) + faulty_cases(dice) + large_cases(dice) + stored_cases(dice)
    cases = [with_cleaning(case) for case in cases] + cleaning_cases(dice) + [with_cleaning(case) for case in counted_cases(dice)]
    return [with_settings(shares, case) for case in cases] + share_cases(shares) + trial_cases(Dice(TRIAL_SEED)) + unit_cases(Dice(UNIT_SEED))


def swept_states(tasks, low, high):
    """How many states a sweep has; no position is given past the tasks."""
    last = eight_in(low, high)
    assert 1 <= tasks <= 8 and not any(last[tasks:])
    return math.prod(position + 1 for position in last)


def encoded(cases):
    """The input's bytes."""
    words = [len(cases)]
    for case in cases:
        assert len(case.words) <= MAX_SET and case.map_length <= MAX_MAP and case.plan_length <= MAX_PLAN and len(case.calls) <= MAX_CALLS
        words += [len(case.words), case.map_length, case.plan_length, len(case.calls)] + case.words
        for call in case.calls:
            assert call[0] != ROUTE or call[1] <= MAX_ROUTE
            assert call[0] != POKE or call[1] < case.map_length
            assert call[0] != LEND or call[1] <= case.map_length
            assert call[0] != STORE or call[1] < case.plan_length
            assert call[0] != KEEP or call[1] <= case.plan_length
            assert call[0] != SWEEP or swept_states(*call[1:]) <= MAX_SWEEP
            assert call[0] != CLEAN or call[1] <= MAX_CLEAN
            assert call[0] != PLACE or call[1] + 8 <= MAX_ORDER
            assert call[0] != ORDER or call[1] <= MAX_ORDER
            assert call[0] != TRIAL or call[1] <= MAX_ROUNDS
            words += call
    return word_bytes(words)


def expected(cases):
    """The output's bytes."""
    lines = []
    for number, case in enumerate(cases):
        lines += Play(number, case).lines
    return "".join(line + "\n" for line in lines).encode("ascii")


def main():
    cases = all_cases()
    made = [encoded(cases), expected(cases)]
    if sys.argv[1:] == ["--check"]:
        for name, data in zip(FILES, made):
            with open(name, "rb") as file:
                if file.read() != data:
                    sys.exit("make_corpus: %s differs from what is made" % os.path.relpath(name))
        print("make_corpus: %d cases, both files as made" % len(cases))
    else:
        for name, data in zip(FILES, made):
            os.makedirs(os.path.dirname(name), exist_ok=True)
            with open(name, "wb") as file:
                file.write(data)
        print("make_corpus: %d cases, %d and %d bytes" % (len(cases), len(made[0]), len(made[1])))


if __name__ == "__main__":
    main()
