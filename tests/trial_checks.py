"""The brute search on trials (docs/SCOPE.md, "Trial"): what they count, where they end and what they are refused with, on small sets. tests/test_brute.py runs these checks."""

import functools
import itertools
from collections import namedtuple
from unittest import mock

import brute
from brute import FRESH, NO_ROWS, Record, Set, Settings, Trial, bid, grid_of, lengths_of, map_of, next_state, rank_of, read_set, trial, words_of
from make_corpus import SEED, Dice, absent_task, any_order, any_settings, apart, crossing, faulty_order, few_order, long_order, refused_settings, some_rounds
from make_corpus import spoilt_bytes, unreached_order, users, whole_order
from share_checks import A, LARGEST, SMALL, known_sets, some_sets

# What a trial is lent and given.
Given = namedtuple("Given", "words map_slice order rounds settings")

# Words that are refused.
BAD_WORDS = [0x10000001]


# A trial that makes no bid.
NO_BIDS = Trial(("tried", 0), NO_ROWS, 0)


def refused(number, place):
    return Trial(("refused", number, place), NO_ROWS, 0)


def rows(*first):
    """Eight rows that begin with these; the others are 0."""
    return first + NO_ROWS[len(first) :]


# Example u and more trials on a, worked out by hand: the order, the settings, the answers round by round with G, F, B, H and S for them, both rows, and Finished.
U_TRIALS = [
    ((0, 0, 1), Settings(255, 255), "GGB GGG FFG FFG FFG", (4, 0, 0, 0), (4, 1, 0, 0), 6),
    ((0, 0, 1), Settings(1, 2), "GGB GSG GFG FFG FFG", (4, 0, 0, 1), (4, 1, 0, 0), 5),
    ((1, 0, 0), Settings(1, 2), "GHH GBB GGB GGG FG", (4, 3, 2, 0), (4, 0, 0, 0), 1),
    ((0, 1), Settings(1, 2), "GH GB GG GG FG FG", (4, 0, 0, 0), (4, 1, 1, 0), 2),
]


def example_u():
    """Those, in as many rounds as they take, in eight and in the most; and trials that end before every task is finished, or are refused."""
    bytes_ = map_of(read_set(A))
    for order, settings, letters, first, second, finished in U_TRIALS:
        answers = letters.split()
        said = "".join(answer[0][0].upper() for _, answer in brute.bids_tried(read_set(A), bytes_, order, 8, settings))
        assert said == "".join(answers), (order, said)
        for rounds in (len(answers), 8, 65535):
            assert trial(A, bytes_, order, rounds, settings) == Trial(("tried", len(said)), rows(first, second), finished), order
    assert trial(A, bytes_, (0, 1), 3, Settings(1, 2)) == Trial(("tried", 6), rows((3, 0, 0, 0), (1, 1, 1, 0)), 0)
    assert trial(A, [2] * 25, (0, 1), 0, Settings(1, 2)) == NO_BIDS
    assert trial(A, [2] * 25, (0, 1), 1, Settings(1, 2)) == refused(16, 0)
    assert trial(A, [0] + [4] * 24, (1,), 1, Settings(1, 2)) == refused(18, 1)
    assert trial(A, [0, 0] + [4] * 23, (1,), 2, Settings(1, 2)) == refused(18, 2)


# --- A second way: the list of bids comes first ---


def whole_list(given):
    """Every bid that the order and the rounds could make, answered by the broker from a fresh record on, with the record before it. Nothing stops it."""
    record, bids = FRESH, []
    for place in range(len(given.order) * given.rounds):
        task = given.order[place % len(given.order)]
        answer, after = bid(given.words, given.map_slice, record, task, given.settings)
        bids.append((task, answer, record))
        record = after
    return bids


def left_to_do(s, record):
    """How many actions of all tasks are left."""
    return sum(map(len, s.tasks)) - sum(record.positions)


def cut(s, bids):
    """How many bids of the list come before the first one that finds nothing left to do."""
    return next((place for place, (_, _, record) in enumerate(bids) if left_to_do(s, record) == 0), len(bids))


def counted_by_place(bids):
    """Rows and Finished over a list of bids: each answer's places are listed for each task."""
    names = ("granted", "busy", "held", "share spent")
    places = [[[place for place, bid in enumerate(bids) if bid[0] == task and bid[1][0] == name] for name in names] for task in range(8)]
    finished = [place for place, bid in enumerate(bids) if bid[1] == ("finished",)]
    return tuple(tuple(len(some) for some in row) for row in places), len(finished)


def recounted(given):
    """What a trial returns that isn't refused before it bids."""
    s = read_set(given.words)
    bids = whole_list(given)
    bids = bids[: cut(s, bids)]
    for _, answer, _ in bids:
        if answer[0] == "refused":
            return Trial(answer, NO_ROWS, 0)
    rows, finished = counted_by_place(bids)
    return Trial(("tried", len(bids)), rows, finished)


def turned_away(given):
    """What this trial could be refused with before it bids, the first that counts in front: the set's, 13, 26, then 27 with each place that is at fault."""
    s = read_set(given.words)
    if not isinstance(s, Set):
        return [s]
    faults = []
    if len(given.map_slice) < grid_of(s):
        faults.append(("refused", 13, grid_of(s)))
    if any(setting not in range(1, 256) for setting in given.settings):
        faults.append(("refused", 26, 0))
    places = [place for place in range(len(given.order)) if given.order[place] not in range(len(s.tasks))]
    places += [0] * (len(given.order) == 0) + [255] * (len(given.order) > 255)
    return faults + [("refused", 27, place) for place in sorted(places)]


def told(given):
    """The whole trial in the second way."""
    faults = turned_away(given)
    return Trial(faults[0], NO_ROWS, 0) if faults else recounted(given)


# --- Trials of every sort ---


def spoilt(dice, s, bytes_):
    """The map with a few bytes replaced, or one that is no set's."""
    if dice.one_in(3):
        return [dice.pick([0, 0, 0, 1, 2, 3]) for _ in bytes_]
    replaced = spoilt_bytes(dice, s)
    if dice.one_in(6):
        replaced[0] = dice.pick([1, 2, 3, 4, 255])
    return [replaced.get(rank, byte) for rank, byte in enumerate(bytes_)]


def given_at_random(dice, s, bytes_):
    """A trial on the set that is mostly right, with any of the faults now and then."""
    words = BAD_WORDS if dice.one_in(40) else words_of(*s)
    map_slice = bytes_ if dice.one_in(2) else spoilt(dice, s, bytes_)
    map_slice = map_slice[:-1] if dice.one_in(12) else map_slice + [dice.below(256)] * dice.pick([0, 0, 1, 5])
    order = faulty_order(dice, s) if dice.one_in(6) else any_order(dice, s)
    settings = refused_settings(dice) if dice.one_in(8) else any_settings(dice)
    rounds = some_rounds(dice, s)
    return Given(words, map_slice, order, min(rounds, 30), settings)


def idle_sets():
    return [Set([], [[]] * tasks) for tasks in (1, 2, 8)]


@functools.lru_cache(maxsize=None)
def many():
    """Trials on known sets, idle ones, ones of eight tasks and random ones."""
    dice, givens = Dice(SEED), []
    for s in some_sets(100, 60) + idle_sets() + [users(8, 8, 1), apart([4, 4, 4, 4])]:
        bytes_ = map_of(s)
        givens += [given_at_random(dice, s, bytes_) for _ in range(12)]
        # Every task comes home in these, the last with a round's first bid, or in a round.
        givens += [Given(words_of(*s), bytes_, whole_order(dice, s), sum(lengths_of(s)), dice.pick(SMALL)) for _ in range(2)]
        givens.append(Given(words_of(*s), bytes_, unreached_order(dice, s), 1, LARGEST))
        givens.append(Given(words_of(*s), bytes_, long_order(dice, s, dice.pick([254, 255, 256])), 1, dice.pick(SMALL)))
        givens.append(Given(words_of(*s), bytes_, few_order(dice, s), dice.pick([0, 1, 3]), refused_settings(dice)))
    # More rounds, and tallies, than eight bits count.
    givens += [Given(words_of(*s), map_of(s), few_order(dice, s)[:2], dice.pick([256, 257, 300]), dice.pick(SMALL)) for s in known_sets()]
    return givens


# --- What is checked ---


@functools.lru_cache(maxsize=None)
def many_told():
    """Those trials, each with what it returns in the second way."""
    return [(given, told(given)) for given in many()]


def both_ways_agree():
    """The trial, and its recount: every refusal and every answer in a row among them."""
    met = set()
    for given, said in many_told():
        answer, rows, finished = trial(*given)
        assert (answer, rows, finished) == said, given
        met.add(answer[:2] if answer[0] == "refused" else "tried")
        met |= {("row", place) for row in rows for place in range(4) if row[place]} | {"finished" for _ in range(finished)}
    assert met == {"tried", "finished"} | {("row", place) for place in range(4)} | {("refused", number) for number in (11, 13, 16, 18, 26, 27)}, met


def sums_and_ends():
    """What was counted adds up to the bids made; fewer than the order and the rounds have only where every task is finished; a task's grants are its position. Absent
    tasks have no bids, and a refused trial has no rows."""
    ends = set()
    for given in many():
        answer, rows, finished = trial(*given)
        if answer[0] == "refused":
            assert rows == NO_ROWS and finished == 0, given
            continue
        _, made = answer
        s, most = read_set(given.words), len(given.order) * given.rounds
        tasks = len(s.tasks)
        assert sum(map(sum, rows)) + finished == made <= most, given
        home = tuple(row[0] for row in rows[:tasks]) == lengths_of(s)
        assert made == most or home, given
        assert rows[tasks:] == NO_ROWS[tasks:], given
        assert tuple(row[0] for row in rows) == record_after(given, made).positions, given
        ends.add((made == most, home, made % len(given.order) == 0))
    # All bids made with every task home and without, and fewer, at the end of a round and within one.
    assert ends == {(True, True, True), (True, False, True), (False, True, True), (False, True, False)}, ends


def record_after(given, made):
    """The record that so many bids leave."""
    record = FRESH
    for task in (list(given.order) * given.rounds)[:made]:
        _, record = bid(given.words, given.map_slice, record, task, given.settings)
    return record


def all_come_home():
    """On the set's own map, with an order that names every task and as many rounds as actions or more, each task is granted its actions, and none of a trial's bids is refused,
    whatever the order and the rounds are."""
    dice = Dice(SEED)
    for s in some_sets(60, 120):
        words, bytes_, actions = words_of(*s), map_of(s), sum(lengths_of(s))
        for settings in SMALL + [LARGEST, Settings(1, 255), Settings(255, 1), Settings(254, 255)]:
            for rounds in (actions, actions + 1, 65535):
                answer, rows, _ = trial(words, bytes_, whole_order(dice, s), rounds, settings)
                assert answer[0] == "tried" and tuple(row[0] for row in rows) == lengths_of(s) + (0,) * (8 - len(s.tasks)), (s, settings)
            assert trial(words, bytes_, few_order(dice, s), dice.below(20), settings).answer[0] == "tried", (s, settings)


# Each refusal with a place of its own in the order in which they come.
FAULTS = (11, 13, 26, 27, 16, 18)


def given_with(dice, s, faults, rounds):
    """A trial with these faults, and the place that each would be refused with. Its first bid is of a task that has a next state."""
    task = dice.pick([task for task, length in enumerate(lengths_of(s)) if length > 0])
    rank = rank_of(s, next_state((0,) * len(s.tasks), task))
    bytes_ = map_of(s)
    if 16 in faults:
        bytes_[0] = dice.pick([1, 2, 3, 4, 255])
    if 18 in faults:
        bytes_[rank] = dice.pick([4, 5, 128, 255])
    order = [task] + few_order(dice, s) + [absent_task(dice, s)] * (27 in faults)
    settings = refused_settings(dice) if 26 in faults else dice.pick(SMALL)
    given = Given(BAD_WORDS if 11 in faults else words_of(*s), bytes_[: grid_of(s) - (13 in faults)], order, rounds, settings)
    return given, {11: 1, 13: grid_of(s), 26: 0, 27: len(order) - 1, 16: 0, 18: rank}


def order_of_refusals():
    """Every choice of faults: the set's refusal, 13, 26 and 27, then a bid's 16 and 18. Where there is no round these two don't come, and the others do."""
    dice = Dice(SEED)
    choices = [[number for number, is_there in zip(FAULTS, choice) if is_there] for choice in itertools.product((False, True), repeat=6)]
    for s, faults, rounds in itertools.product([s for s in some_sets(20, 60) if sum(lengths_of(s)) > 0], choices, (0, 1, 3)):
        given, place_of = given_with(dice, s, faults, rounds)
        first = next((number for number in faults if rounds > 0 or number not in (16, 18)), None)
        said = trial(*given)
        if first is not None:
            assert said == refused(first, place_of[first]), (given, faults)
        elif rounds == 0:
            assert said == NO_BIDS, given
        else:
            assert said.answer[0] == "tried", given


def sets_without_actions():
    """They make no bid, so that no byte of the map brings a refusal; 13, 26 and 27 come as ever."""
    for s, byte, rounds in itertools.product(idle_sets(), (0, 1, 4, 255), (0, 1, 65535)):
        words, last = words_of(*s), len(s.tasks) - 1
        assert trial(words, [byte], [last], rounds, LARGEST) == trial(words, [byte] * 9, [0, last] * 127, rounds, Settings(1, 1)) == NO_BIDS, s
        assert trial(words, [], [], rounds, Settings(0, 0)) == refused(13, 1), s
        assert trial(words, [byte], [], rounds, Settings(1, 256)) == refused(26, 0), s
        assert trial(words, [byte], [last, last + 1], rounds, LARGEST) == refused(27, 1), s


def lengths_of_orders():
    """1 to 255 bytes are an order. 256 and more have the place 255, whatever they would be in fewer bits, unless an absent task stands before it."""
    for s in (crossing(2), users(8, 8, 1)):
        words, bytes_, last = words_of(*s), map_of(s), len(s.tasks) - 1
        for length, rounds in itertools.product((0, 1, 2, 8, 254, 255, 256, 257, 511, 512, 513, 65535, 65536, 65537), (0, 1, 2)):
            answer = trial(words, bytes_, [last] * length, rounds, LARGEST).answer
            place = 0 if length == 0 else 255 if length > 255 else None
            assert answer == (("tried", length * rounds) if place is None else ("refused", 27, place)), (length, answer)
        for place, length, absent in itertools.product((0, 1, 253, 254, 255, 256, 299), (254, 255, 256, 257, 300), (last + 1, 8, 255)):
            order = [last] * length
            if place < length:
                order[place] = absent
                assert trial(words, bytes_, order, 0, LARGEST).answer == ("refused", 27, min(place, 255)), (place, length)


def numbers_of_rounds():
    """Rounds and tallies take more than 8 bits, and 65,535 rounds more than 16."""
    bytes_ = map_of(read_set(A))
    for rounds in (254, 255, 256, 257, 65534, 65535):
        assert trial(A, bytes_, [0], rounds, Settings(1, 2)) == Trial(("tried", rounds), rows((3, 0, 0, rounds - 3)), 0)
    assert trial(A, bytes_, [1, 1], 65535, LARGEST) == Trial(("tried", 131070), rows((0,) * 4, (4, 0, 0, 0)), 131066)


# --- Wrong trials ---

# The right parts, of which the wrong ones are made.
right_rows, right_tried, right_fault, right_refusal = brute.rows_of, brute.tried, brute.order_fault, brute.trial_refusal


def finished_all(s, record, order):
    return brute.state_in(s, record) == lengths_of(s)


def finished_in_order(s, record, order):
    """Only the order's tasks are looked at."""
    return all(record.positions[task] == len(s.tasks[task]) for task in order)


def finished_one(s, record, order):
    return any(record.positions[task] == len(actions) for task, actions in enumerate(s.tasks))


def window_closed(s, record, order):
    return finished_all(s, record, order) or record.grants > 0 and not any(record.counts)


def bidding(
    looks=lambda place, order: True,
    ended=finished_all,
    first=FRESH,
    renewed=lambda record: record,
    tasks=lambda s, order: order,
    times=lambda rounds: rounds,
    brought=lambda settings: settings,
    stops=True,
):
    """The bids of a trial in other ways: where it looks, what it takes for the end, which record it starts with and what becomes of that between rounds, which tasks bid,
    how many rounds there are, which settings are brought, and whether a refused bid ends it."""

    def bids_tried(s, map_slice, order, rounds, settings):
        record, bids, down = first, [], tasks(s, order)
        for place in range(len(down) * times(rounds)):
            if place > 0 and place % len(down) == 0:
                record = renewed(record)
            if looks(place, down) and ended(s, record, down):
                break
            task = down[place % len(down)]
            answer, record = brute.bid_on(s, map_slice, record, task, brought(settings))
            if answer[0] != "refused" or stops:
                bids.append((task, answer))
            if answer[0] == "refused" and stops:
                break
        return bids

    return bids_tried


def without_last(items):
    return items[: max(1, len(items) - 1)]


# Its bids are others.
WRONG_BIDS = {
    "the look only between rounds": bidding(looks=lambda place, order: place % len(order) == 0),
    "the look only within rounds": bidding(looks=lambda place, order: place % len(order) > 0),
    "a bid made before the first look": bidding(looks=lambda place, order: place > 0),
    "no look": bidding(looks=lambda place, order: False),
    "the order's tasks finished taken for the end": bidding(ended=finished_in_order),
    "one finished task taken for the end": bidding(ended=finished_one),
    "a window's end taken for the end": bidding(ended=window_closed),
    "the record not fresh: a window begun": bidding(first=Record((0,) * 8, 0, (1,) + (0,) * 7)),
    "the record not fresh: an action done": bidding(first=Record((1,) + (0,) * 7, 0, (0,) * 8)),
    "a fresh record for each round": bidding(renewed=lambda record: FRESH),
    "counts cleared for each round": bidding(renewed=lambda record: record._replace(counts=(0,) * 8)),
    "the order backwards": bidding(tasks=lambda s, order: order[::-1]),
    "the order sorted": bidding(tasks=lambda s, order: sorted(order)),
    "each task once": bidding(tasks=lambda s, order: list(dict.fromkeys(order))),
    "every task, whatever the order": bidding(tasks=lambda s, order: list(range(len(s.tasks)))),
    "the order without its last": bidding(tasks=lambda s, order: without_last(order)),
    "one round more": bidding(times=lambda rounds: rounds + 1),
    "one round less": bidding(times=lambda rounds: max(0, rounds - 1)),
    "one round at least": bidding(times=lambda rounds: max(1, rounds)),
    "one round at most": bidding(times=lambda rounds: min(1, rounds)),
    "rounds in eight bits": bidding(times=lambda rounds: rounds % 256),
    "settings exchanged": bidding(brought=lambda settings: Settings(settings.window, settings.share)),
    "the share for the window too": bidding(brought=lambda settings: Settings(settings.share, settings.share)),
    "the largest settings": bidding(brought=lambda settings: LARGEST),
    "a refused bid passed over": bidding(stops=False),
}


def other_rows(task_of=lambda task: task, name_of=lambda name: name):
    """The rows of other tasks or other answers."""
    return lambda bids: right_rows([(task_of(task), (name_of(answer[0]),)) for task, answer in bids])


def exchanged(first, second):
    return lambda name: {first: second, second: first}.get(name, name)


def in_eight_bits(bids):
    return tuple(tuple(tally % 256 for tally in row) for row in right_rows(bids))


# Its rows are others.
WRONG_ROWS = {
    "Finished counted as Granted": other_rows(name_of=lambda name: "granted" if name == "finished" else name),
    "Finished counted as Busy": other_rows(name_of=lambda name: "busy" if name == "finished" else name),
    "Held counted as Busy": other_rows(name_of=lambda name: "busy" if name == "held" else name),
    "Share spent counted as Held": other_rows(name_of=lambda name: "held" if name == "share spent" else name),
    "Share spent not counted": other_rows(name_of=lambda name: "" if name == "share spent" else name),
    "Granted and Busy exchanged": other_rows(name_of=exchanged("granted", "busy")),
    "Busy and Held exchanged": other_rows(name_of=exchanged("busy", "held")),
    "a task's bids in the next one's row": other_rows(task_of=lambda task: (task + 1) % 8),
    "two tasks' rows exchanged": other_rows(task_of=exchanged(0, 1)),
    "all bids in the first row": other_rows(task_of=lambda task: 0),
    "no row for the eighth task": other_rows(task_of=lambda task: task if task < 7 else None),
    "tallies in eight bits": in_eight_bits,
}


def refusing(keeps_rows=False, keeps_finished=False, tells=True):
    """What is returned where a bid was refused: with rows, with the Finished ones, or as if it had been made."""

    def tried(bids):
        said = right_tried(bids)
        if said.answer[0] != "refused":
            return said
        made = right_tried(bids[:-1])
        return Trial(said.answer if tells else ("tried", len(bids)), made.rows if keeps_rows else NO_ROWS, made.finished if keeps_finished else 0)

    return tried


def totalled(change):
    """What is returned, changed where nothing was refused."""

    def tried(bids):
        said = right_tried(bids)
        return said if said.answer[0] == "refused" else change(said, bids)

    return tried


# It tells something else of its bids.
WRONG_TOLD = {
    "rows kept at a refused bid": refusing(keeps_rows=True),
    "Finished kept at a refused bid": refusing(keeps_finished=True),
    "rows told in place of a refusal": refusing(keeps_rows=True, keeps_finished=True, tells=False),
    "Finished not totalled": totalled(lambda said, bids: said._replace(finished=0)),
    "Finished totalled once for a task": totalled(lambda said, bids: said._replace(finished=len({task for task, answer in bids if answer == ("finished",)}))),
    "bids answered Finished not among those made": totalled(lambda said, bids: said._replace(answer=("tried", len(bids) - said.finished))),
    "granted bids alone told as made": totalled(lambda said, bids: said._replace(answer=("tried", sum(row[0] for row in said.rows)))),
}


def places(most=255, top=None, first=True, empty=0, seen=None):
    """27's place by other rules: another greatest length, another place for an order that is too long, the last fault, an empty order let through, or not all places seen."""

    def order_fault(s, order):
        if len(order) == 0:
            return empty
        faults = [place for place, task in enumerate(order[:seen]) if task >= len(s.tasks)] + [most if top is None else top] * (len(order) > most)
        return (min(faults) if first else max(faults)) if faults else None

    return order_fault


# Its order is judged in another way.
WRONG_ORDERS = {
    "an empty order let through": places(empty=None),
    "an empty order at place 255": places(empty=255),
    "255 taken for too long": places(most=254),
    "256 let through": places(most=256),
    "no order taken for too long": places(most=2**40),
    "place 254 for an order of 256": places(top=254),
    "place 256 for an order of 256": places(top=256),
    "the last fault's place": places(first=False),
    "an absent task seen at the first place alone": places(seen=1),
    "an absent task at the last place not seen": places(seen=-1),
    "an absent task beside one that is too long not seen": lambda s, order: 255 if len(order) > 255 else right_fault(s, order),
    "absent only from 8 on": lambda s, order: right_fault(Set([], [[]] * 8), order),
    "the first absent task's number for its place": lambda s, order: next((task for task in order if task >= len(s.tasks)), right_fault(s, order)),
}


def seen_first(*numbers):
    """The refusals before any bid, in another order."""

    def refusal(s, map_slice, order, settings):
        good = {13: [0] * grid_of(s), 26: LARGEST, 27: [0]}
        for number in numbers:
            lent = [given if number == own else good[own] for own, given in ((13, map_slice), (27, order), (26, settings))]
            said = right_refusal(s, *lent)
            if said:
                return said
        return None

    return refusal


# It looks in another order.
WRONG_PRECEDENCE = {
    "27 before 26": seen_first(13, 27, 26),
    "26 before 13": seen_first(26, 13, 27),
    "27 before 13": seen_first(27, 13, 26),
    "no 27": seen_first(13, 26),
    "no 13": seen_first(26, 27),
}


def only_with_bids(number):
    """This refusal comes only if there is a round, and something to do."""

    def wrong(given):
        said, s = trial(*given), read_set(given.words)
        bids = given.rounds > 0 and isinstance(s, Set) and sum(lengths_of(s)) > 0
        return NO_BIDS if said.answer[:2] == ("refused", number) and not bids else said

    return wrong


def without_bids(given):
    """16 for the start's byte where no bid is made too."""
    said = trial(*given)
    return refused(16, 0) if said == NO_BIDS and given.map_slice[0] != 0 else said


def whole_map(given):
    """18 for any byte of the map, before the bids."""
    if turned_away(given):
        return trial(*given)
    over = [rank for rank in range(grid_of(read_set(given.words))) if given.map_slice[rank] > 3]
    return refused(18, over[0]) if over else trial(*given)


def unreached(given):
    """An absent task is seen only when its turn comes: one that the early stop never reaches is let through."""
    said = trial(*given)
    _, place = said.answer[-2:]
    if said.answer[:2] == ("refused", 27) and given.rounds > 0 and 0 < place < 255:
        before = trial(given.words, given.map_slice, given.order[:place], 1, given.settings)
        if before.answer[0] == "tried" and before.answer[1] < place:
            return before
    return said


def settings_first(given):
    """26 before the set's refusals."""
    bad = any(setting not in range(1, 256) for setting in given.settings)
    return refused(26, 0) if bad else trial(*given)


# It goes wrong around the bids.
WRONG_AROUND = {
    "26 only where a bid is made": only_with_bids(26),
    "27 only where a bid is made": only_with_bids(27),
    "13 only where a bid is made": only_with_bids(13),
    "16 brought where no bid is made": without_bids,
    "18 for a byte that no bid meets": whole_map,
    "an absent task let through that the early stop never reaches": unreached,
    "26 before the set's refusals": settings_first,
}


def patched(part, wrong):
    """The trial with one of its parts replaced."""

    def trial_with(given):
        with mock.patch.object(brute, part, wrong):
            return trial(*given)

    return trial_with


def wrong_trials():
    """Every wrong trial by name."""
    parts = [("bids_tried", WRONG_BIDS), ("rows_of", WRONG_ROWS), ("tried", WRONG_TOLD), ("order_fault", WRONG_ORDERS), ("trial_refusal", WRONG_PRECEDENCE)]
    found = {name: patched(part, wrong) for part, wrongs in parts for name, wrong in wrongs.items()}
    return {**found, **WRONG_AROUND}


def wrong_ones_are_seen():
    """Each of them differs from the second way in some of the trials."""
    for name, wrong in wrong_trials().items():
        assert any(wrong(given) != said for given, said in many_told()), name


CHECKS = [example_u, both_ways_agree, sums_and_ends, all_come_home, order_of_refusals, sets_without_actions, lengths_of_orders, numbers_of_rounds]
CHECKS += [wrong_ones_are_seen]
