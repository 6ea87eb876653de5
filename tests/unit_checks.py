"""The brute search on claims of several units (docs/SCOPE.md, "Sets", "States and holds", "Forbidden boxes"): their layout, 28, permitted states, boxes and their order, and
what is made of these. tests/test_brute.py runs these checks."""

import functools
import itertools
from unittest import mock

import brute
from brute import CLAIM, FRESH, RELEASE, Hold, Record, Set, Settings, claim, lengths_of, next_state, rank_of, states_of, word_bytes, words_of
from make_corpus import CLAIM_FAULTS, SEED, UNIT_BLOCKERS, Dice, box_sizes, claim_with, damaged_unit_words, faults_together, named_sets, one_claim, random_set, shared_unit_set
from make_corpus import sized_set, tight_unit_set, unclean_unit_set, unit_set, unit_sets, unit_users, written_set
from share_checks import LARGEST, SMALL, answers_at, finished_after, records_of_service, shares_at, ways_of_rounds
from trial_checks import given_at_random, told

# --- Examples, worked out by hand ---

# Two radio patches that need two channels of the gateway each, and a call that needs one; the gateway has three. Both patches together are too much, a patch and the call
# are not. It is examples/patch.words.
PATCH = [
    0x10000003, 0x20000000, 0x30010000, 0x40000000, 0x20000000, 0x30010000, 0x40000000, 0x20000000, 0x30000000, 0x40000000, 0x5000000A,
]  # fmt: skip
PATCH_PLAN = "60000000 80000101 80010101 80020002 50000004"

# Of capacity 2: the first task holds both units and later one, the others one each. Boxes of two tasks stand before the one of three.
TWO_SIZES = [
    0x10000002, 0x20000000, 0x30010000, 0x40000000, 0x30000000, 0x40000000, 0x20000000, 0x30000000, 0x40000000, 0x20000000, 0x30000000, 0x40000000, 0x5000000C,
]  # fmt: skip
TWO_SIZES_PLAN = """60000000 80000101 80010101 80020002 60000000 80000101 80010002 80020101 60000000 80000303 80010101 80020101 5000000C"""

# Of capacity 3, with 1, 2, 1 and 3 units. Where all hold, the first by number that exceed are 0, 1 and 2, which make a box; the first box is that of 0 and 3.
OTHER_FIRST = [
    0x10000003, 0x20000000, 0x30000000, 0x40000000, 0x20000000, 0x30010000, 0x40000000, 0x20000000, 0x30000000, 0x40000000,
    0x20000000, 0x30020000, 0x40000000, 0x5000000D,
]  # fmt: skip
OTHER_FIRST_PLAN = """60000000 80000101 80010002 80020002 80030101 60000000 80000002 80010101 80020002 80030101 60000000 80000002 80010002 80020101 80030101
    60000000 80000101 80010101 80020101 80030002 50000014"""

# Two tasks that each hold two of three units of one device and then want two of the other: the state between is dead.
CROSSED = [
    0x10000003, 0x10000003, 0x20000000, 0x30010000, 0x30010001, 0x40000001, 0x40000000, 0x20000000, 0x30010001, 0x30010000, 0x40000000, 0x40000001, 0x5000000C,
]  # fmt: skip
CROSSED_PLAN = "60000000 80000103 80010202 60000001 80000202 80010103 70000000 80000101 80010101 90000006 5000000A"


def plans_by_hand():
    """What the printer prints of them, and the sets that they are."""
    for words, plan in ((PATCH, PATCH_PLAN), (TWO_SIZES, TWO_SIZES_PLAN), (OTHER_FIRST, OTHER_FIRST_PLAN), (CROSSED, CROSSED_PLAN)):
        assert brute.printed(word_bytes(words)) == "\n".join(plan.split()) + "\n", plan
    assert brute.read_set(PATCH) == unit_users(3, (2, 2, 1)) and brute.read_set(TWO_SIZES) == written_set("2 +0x2-0+0-0 +0-0 +0-0")
    assert brute.read_set(OTHER_FIRST) == unit_users(3, (1, 2, 1, 3)) and brute.read_set(CROSSED) == written_set("33 +0x2+1x2-1-0 +1x2+0x2-0-1")


def first_box_by_hand():
    """Where all four tasks hold the device, the first box is of 0 and 3; the first tasks by number that exceed are others."""
    s, state = brute.read_set(OTHER_FIRST), (1, 1, 1, 1)
    boxes = [box for _, box in brute.forbidden_boxes(s)]
    assert brute.first_box(boxes, state) == ((1, 1), (0, 2), (0, 2), (1, 1))
    assert greedy_holders(s, state, 0) == (0, 1, 2) and ((1, 1), (1, 1), (1, 1), (0, 2)) in boxes


def boxes_by_hand():
    """The tasks that meet in each box of one device, by its capacity and the units of its users."""
    for capacity, units, sets in (
        (3, (2, 2, 1), ["01"]),
        (3, (1, 1, 3), ["02", "12"]),
        (3, (1, 2, 1, 3), ["03", "13", "23", "012"]),
        (3, (3, 1, 2, 1), ["01", "02", "03", "123"]),
        (2, (1, 1, 1), ["012"]),
        (4, (1, 2, 2, 3), ["13", "23", "012"]),
        (8, (8, 1, 7, 2), ["01", "02", "03", "23"]),
        (8, (1, 2, 3, 4, 5, 6), ["25", "34", "35", "45", "015", "024", "123", "124"]),
        (8, (2, 2, 2, 2), []),
        (1, (1, 1), ["01"]),
        (8, (8,), []),
    ):
        whole = [(0, 2)] * len(units)
        boxes = [(0, tuple((1, 1) if str(task) in tasks else side for task, side in enumerate(whole))) for tasks in sets]
        assert brute.forbidden_boxes(unit_users(capacity, units)) == boxes, (capacity, units)


def choices_by_hand():
    """One task's holds have units of their own; the first task's hold weighs most, and holds come by rising position."""
    s = written_set("3 +0-0+0x3-0+0x2-0 +0x2-0+0-0+0x3-0")
    sides = [((1, 1), (5, 5)), ((3, 3), (1, 1)), ((3, 3), (3, 3)), ((3, 3), (5, 5)), ((5, 5), (1, 1)), ((5, 5), (5, 5))]
    assert brute.forbidden_boxes(s) == [(0, box) for box in sides]
    assert brute.holds_of(s.tasks[0], 0) == [Hold(1, 1, 1), Hold(3, 3, 3), Hold(5, 5, 2)]


def bids_by_hand():
    """Beside one patch the call goes on and the second patch doesn't; a release gives both channels back. Busy names the device, whatever the units: here with devices before
    the one that is wanted."""
    answers, record, bytes_ = [], FRESH, brute.map_of(brute.read_set(PATCH))
    for task in (0, 1, 2, 1, 0, 1):
        answer, record = brute.bid(PATCH, bytes_, record, task, LARGEST)
        answers.append(answer)
    assert answers == [("granted",), ("busy", 0), ("granted",), ("busy", 0), ("granted",), ("granted",)], answers
    assert record.positions == (2, 1, 1, 0, 0, 0, 0, 0)
    s = written_set("1124 +3x4+0+1+2x2-2-1-0-3 +3x3-3")
    answer, _ = brute.bid(words_of(*s), brute.map_of(s), Record((1,) + (0,) * 7, 0, (0,) * 8), 1, LARGEST)
    assert answer == ("busy", 3), answer


# --- The layout ---


def layout_by_bits():
    """A claim's word is 3, a digit 0, two digits of extra units, four of the device; every claim and release comes back as it was."""
    for device, units in itertools.product(range(16), range(1, 9)):
        task = [claim(device, units), (RELEASE, device)]
        s = Set([8] * 16, [task])
        words = words_of(*s)
        assert ["%08X" % word for word in words[17:19]] == ["30%02X%04X" % (units - 1, device), "4%07X" % device]
        assert brute.read_set(words, former=True) == s and brute.units_of(task[0]) == units, (device, units)
    assert one_claim(8, 256)[2] == 0x30FF0000
    dice = Dice(SEED)
    for s in unit_sets() + [unclean_unit_set(dice, 200) for _ in range(100)]:
        assert brute.read_set(words_of(*s), former=True) == s, s


def units_and_capacity():
    """28 exactly where the units are more than the capacity, by both rules, whatever eight bits make of them; and never of a RELEASE."""
    for capacity, units, device in itertools.product(range(1, 9), range(1, 257), (0, 2)):
        words = one_claim(capacity, units, device)
        refused = ("refused", 28, len(words) - 3) if units > capacity else None
        said = brute.read_set(words, former=True)
        assert said == refused if refused else isinstance(said, Set), (capacity, units)
        assert refused is None or brute.read_set(words) == brute.clean(words, [])[0] == refused, (capacity, units)


def fields_of_actions():
    """The other bits of both actions: a CLAIM has a declared device in bits 15 to 0 and bits 27 to 24 clear, a RELEASE a declared device in all 28. Else it is 6."""
    good = words_of([8, 8, 8], [[(CLAIM, 0), (CLAIM, 1), (CLAIM, 2), (RELEASE, 2), (RELEASE, 1), (RELEASE, 0)]])
    for place, word in enumerate(good):
        if word >> 28 not in (CLAIM, RELEASE):
            continue
        for bit in range(2, 28):
            said = brute.read_set(good[:place] + [word | 1 << bit] + good[place + 1 :])
            if word >> 28 == CLAIM and 16 <= bit <= 23:
                extra = 1 << bit - 16
                assert said == ("refused", 28, place) if extra + 1 > 8 else isinstance(said, Set), (place, bit)
            else:
                assert said == ("refused", 6, place), (place, bit)


def order_of_28():
    """Of the faults of one CLAIM the first in the order 5, 6, 7, 28, 8 is told, by both rules; behind END it is 3. They come before 11, 24 and 12."""
    for number, faults in enumerate(faults_together()):
        words = claim_with(faults, 1 << number % 4)
        first = next((number for number in CLAIM_FAULTS if number in faults), 11)
        place = len(words) if first == 11 else len(words) - 1
        assert brute.read_set(words) == brute.read_set(words, former=True) == ("refused", first, place), faults
    assert brute.read_set([0x20000000, 0x50000001, 0x30FF0000]) == ("refused", 3, 2)
    assert brute.read_set([0x10000001, 0x10000001, 0x20000000, 0x30010001]) == ("refused", 28, 3)
    # A device that isn't declared has no capacity.
    assert brute.read_set([0x10000001, 0x20000000, 0x30010001]) == ("refused", 6, 2)
    assert brute.read_set([0x20000000, 0x30FF0000]) == ("refused", 6, 1)


# --- Permitted states and boxes ---


@functools.lru_cache(maxsize=None)
def many():
    """Known sets with units and random ones, of which some have boxes of several sizes for a device."""
    dice = Dice(SEED)
    return [brute.cleaned(s) for s in unit_sets() + [make(dice, 150) for make in (unit_set, tight_unit_set, sized_set) for _ in range(30)]]


def held_units(s, task, position, device):
    """The units of a device that a task holds: the last of its actions on the device says it."""
    last = next((action for action in reversed(s.tasks[task][:position]) if action[1] == device), (RELEASE, device))
    return brute.units_of(last) if last[0] == CLAIM else 0


def overfull(s, state):
    """The devices of which more units are held than there are."""
    totals = [sum(held_units(s, task, position, device) for task, position in enumerate(state)) for device in range(len(s.capacities))]
    return [device for device, total in enumerate(totals) if total > s.capacities[device]]


def first_holders(s, state, device):
    """Of the tasks that hold the device a smallest set whose units exceed, and of these the first by its list."""
    units = {task: held_units(s, task, position, device) for task, position in enumerate(state)}
    sets = itertools.chain.from_iterable(itertools.combinations([task for task in units if units[task]], size) for size in range(1, 9))
    return next(tasks for tasks in sets if sum(units[task] for task in tasks) > s.capacities[device])


def hold_around(s, task, position, device):
    """The positions around this one at which a task holds the device too, without a break."""
    low = high = position
    while held_units(s, task, low - 1, device):
        low -= 1
    while high < len(s.tasks[task]) and held_units(s, task, high + 1, device):
        high += 1
    return low, high


def box_of(s, device, state, tasks):
    """The box of the holds that these tasks have of a device in a state."""
    return tuple(hold_around(s, task, position, device) if task in tasks else (0, len(s.tasks[task])) for task, position in enumerate(state))


def first_forbidden(s, state, holders=first_holders):
    """The first forbidden box that holds a state, with its device: of the lowest device that is too full, there of these holders. None if there is none."""
    devices = overfull(s, state)
    return (devices[0], box_of(s, devices[0], state, holders(s, state, devices[0]))) if devices else None


def boxes_and_units():
    """Over whole grids: a state lies in a forbidden box exactly if more units of some device are held than there are, and so the map says; the first box of its list is of the
    lowest such device, and there of the first of the smallest sets of holders that exceed."""
    met = set()
    for s in many():
        listed, bytes_ = brute.forbidden_boxes(s), brute.map_of(s)
        for state, byte in zip(states_of(s), bytes_):
            found = next((listed_box for listed_box in listed if brute.lies_in(state, listed_box[1])), None)
            assert found == first_forbidden(s, state), (s, state)
            assert (found is not None) == (byte == 1), (s, state)
            met.add(("by number", found == first_forbidden(s, state, greedy_holders)))
        met.add(("sizes", any(len(sizes) > 1 for sizes in box_sizes(s))))
    assert met == {("by number", True), ("by number", False), ("sizes", True), ("sizes", False)}, met


def greedy_holders(s, state, device):
    """The holders by rising number until they exceed, which for one unit each is the first box's set."""
    tasks, total = (), 0
    for task, position in enumerate(state):
        units = held_units(s, task, position, device)
        if units and total <= s.capacities[device]:
            tasks, total = tasks + (task,), total + units
    return tasks


def boxes_of_one_unit(s):
    """The boxes by the rule that there was before units: of each device, any tasks that are one more than its capacity, and a hold of each."""
    boxes = []
    for device, capacity in enumerate(s.capacities):
        for tasks in itertools.combinations(range(len(s.tasks)), capacity + 1):
            sides = [[(hold.first, hold.last) for hold in brute.holds_of(s.tasks[task], device)] if task in tasks else [(0, len(s.tasks[task]))] for task in range(len(s.tasks))]
            boxes += [(device, box) for box in itertools.product(*sides)]
    return boxes


def one_unit_as_before():
    """Sets of one-unit claims have the boxes that they had, in the same order."""
    dice = Dice(SEED)
    for s in named_sets() + [random_set(dice, 200) for _ in range(150)]:
        assert brute.forbidden_boxes(s) == boxes_of_one_unit(s), s


def boxes_just_exceed():
    """Where the tasks of a box alone hold its device it is too full, and no longer where any one of them doesn't: at the box's lowest positions, which are 0 for all others."""
    for s in many():
        for device, box in brute.forbidden_boxes(s):
            corner = [low for low, _ in box]
            assert device in overfull(s, corner), (s, box)
            for task, (low, _) in enumerate(box):
                if low > 0:
                    assert device not in overfull(s, corner[:task] + [0] + corner[task + 1 :]), (s, box)


# --- What is made of them ---


def unsafe_boxes_again(s):
    """The unsafe boxes, with forbidden ones found by their holders: the blocker of a next state is that, or else the first unsafe box so far."""
    end, made = lengths_of(s), []

    def blocker(state):
        found = first_forbidden(s, state)
        return found[1] if found else brute.first_box(made, state)

    for state in reversed(states_of(s)):
        blockers = {task: blocker(next_state(state, task)) for task in range(len(end)) if state[task] < end[task]}
        if blockers and None not in blockers.values() and blocker(state) is None:
            lows = [max([box[j][0] for task, box in blockers.items() if task != j], default=0) for j in range(len(end))]
            made.append(tuple(zip(lows, state)))
    return made


def blockers_by_holders():
    """Unsafe boxes whose blockers are found by their holders: on sets where it counts which box is the first, and on random ones."""
    for s in [written_set(text) for text in UNIT_BLOCKERS] + many()[-30:]:
        assert brute.unsafe_boxes(s) == unsafe_boxes_again(s), s


def starts_are_open():
    """Start and end of every accepted set are open: its tasks can go one after the other."""
    for s in many():
        bytes_ = brute.map_of(s)
        assert (bytes_[0], bytes_[-1]) == (0, 0), s
        state = (0,) * len(s.tasks)
        for task, length in enumerate(lengths_of(s)):
            for _ in range(length):
                state = next_state(state, task)
                assert bytes_[rank_of(s, state)] == 0, (s, state)


def unsafe_by_boxes():
    """A permitted state lies in an unsafe box exactly if the end can't be reached from it: over whole grids."""
    unsafe_states = 0
    for s in many():
        boxes = brute.unsafe_boxes(s)
        for state, byte in zip(states_of(s), brute.map_of(s)):
            assert byte == 1 or (brute.first_box(boxes, state) is not None) == (byte in (2, 3)), (s, state)
            unsafe_states += byte in (2, 3)
    assert unsafe_states > 120, unsafe_states


def service_with_units():
    """Bids, shares and rounds on sets with units, as on others."""
    dice = Dice(SEED)
    for s in [written_set(text) for text in ("3 +0x2-0 +0x2-0 +0-0", "33 +0x2+1x2-1-0 +1x2+0x2-0-1")] + [shared_unit_set(dice, 40) for _ in range(6)]:
        bytes_ = brute.map_of(s)
        for settings in (Settings(1, 2), Settings(2, 3), LARGEST):
            for record in list(records_of_service(s, bytes_, settings))[:300]:
                shares_at(s, bytes_, record, settings, answers_at(s, bytes_, record, settings))
        for way in ways_of_rounds(dice, s):
            rounds = [way(number) for number in range(sum(lengths_of(s)))]
            assert finished_after(s, bytes_, dice.pick(SMALL), rounds), s


def trials_with_units():
    """Trials on sets with units in two ways, as on others."""
    dice = Dice(SEED)
    for _ in range(20):
        s = shared_unit_set(dice, 40)
        bytes_ = brute.map_of(s)
        for given in [given_at_random(dice, s, bytes_) for _ in range(3)]:
            assert brute.trial(*given) == told(given), given


def cleaning_with_units():
    """The cleaner keeps the units; tests/test_brute.py holds it to other ways on sets with units too."""
    words = [0x10000002, 0x10000005, 0x10000001, 0x10000003, 0x20000000, 0x30030001, 0x30020003, 0x40000001, 0x40000003, 0x50000009]
    mended = [0x10000005, 0x10000003, 0x20000000, 0x30030000, 0x30020001, 0x40000000, 0x40000001, 0x50000007]
    assert brute.clean(words, [9] * 9) == (("cleaned", 8), mended + [9])
    assert brute.clean(mended, [9] * 8) == (("cleaned", 8), mended)
    assert brute.read_set(words) == ("refused", 24, 0) and isinstance(brute.read_set(mended), Set)


def damaged_words():
    """28 among the refusals of damaged sets: what the cleaner refuses the former rules refuse, and these differ from the present ones in 24 alone."""
    dice, met = Dice(SEED), set()
    for _ in range(600):
        words = damaged_unit_words(dice)
        former, present = brute.read_set(words, former=True), brute.read_set(words)
        answer, _ = brute.clean(words, [9] * 600)
        assert answer[0] == "cleaned" if isinstance(former, Set) else answer == former, words
        assert present == former or present[:2] == ("refused", 24) and (isinstance(former, Set) or former[1] == 12), words
        met.add(present[1] if present[0] == "refused" else 0)
    assert met >= {0, 3, 4, 5, 6, 8, 9, 10, 11, 24, 28}, met


# --- Wrong programs ---

# The right parts, of which the wrong ones are made.
right_parts, right_held, right_sets, right_boxes, right_holds = brute.action_parts, brute.held_after, brute.task_sets, brute.forbidden_boxes, brute.holds_of
right_blockers, right_bid, right_read, right_cleaned = brute.blockers_of, brute.bid_on, brute.read_set, brute.cleaned


def parts_of_claims(change):
    """The parts of an action, with those of a CLAIM changed: unused bits, units, device."""
    return lambda word: change(*right_parts(word)) if word >> 28 == CLAIM else right_parts(word)


def units_in_releases(word):
    """A RELEASE is read as a CLAIM is."""
    return right_parts(CLAIM << 28 | brute.field_of(word))


# It reads other parts of an action.
WRONG_PARTS = {
    "bits 27 to 24 unread": parts_of_claims(lambda unused, units, device: (0, units, device)),
    "bit 27 alone unread": parts_of_claims(lambda unused, units, device: (unused & 7, units, device)),
    "256 units passing as 0": parts_of_claims(lambda unused, units, device: (unused, units % 256, device)),
    "extra units taken for all units": parts_of_claims(lambda unused, units, device: (unused, max(1, units - 1), device)),
    "units in four bits": parts_of_claims(lambda unused, units, device: (unused, (units - 1) % 16 + 1, device)),
    "units unread": parts_of_claims(lambda unused, units, device: (unused, 1, device)),
    "units refused with 6": parts_of_claims(lambda unused, units, device: (unused + units - 1, units, device)),
    "the device in bits 7 to 0": parts_of_claims(lambda unused, units, device: (unused, units, device % 256)),
    "a RELEASE with units let through": units_in_releases,
}


# It tells another fault of a word.
WRONG_ORDERS = {
    "28 after 8": (3, 4, 5, 6, 7, 8, 28, 9, 10),
    "28 as the largest number": (3, 4, 5, 6, 7, 8, 9, 10, 28),
    "28 before 7": (3, 4, 5, 6, 28, 7, 8, 9, 10),
    "28 before 6": (3, 4, 5, 28, 6, 7, 8, 9, 10),
    "28 before 5": (3, 4, 28, 5, 6, 7, 8, 9, 10),
}


def one_unit_back(actions):
    """A release gives one unit back."""
    held = {}
    for action in actions:
        device = brute.device_of(action)
        units = held.get(device, 0) + (brute.units_of(action) if action[0] == CLAIM else -1)
        held[device] = units
    return {device: units for device, units in held.items() if units > 0}


def one_unit_each(actions):
    """Holders are counted, not units."""
    return {device: 1 for device in right_held(actions)}


# It holds other units.
WRONG_HELD = {"a release giving back one unit": one_unit_back, "holders counted": one_unit_each}


def without(units):
    """The units with each single one left out."""
    return [units[:place] + units[place + 1 :] for place in range(len(units))]


# Its boxes are of other choices.
WRONG_CHOICES = {
    "capacity + 1 tasks, whatever their units": lambda units, capacity: len(units) == capacity + 1,
    "sets of capacity + 1 tasks alone": lambda units, capacity: len(units) == capacity + 1 and sum(units) > capacity and max(map(sum, without(units))) <= capacity,
    "sets of at most capacity tasks": lambda units, capacity: len(units) <= capacity and sum(units) > capacity and max(map(sum, without(units))) <= capacity,
    "some hold for any hold": lambda units, capacity: sum(units) > capacity and min(map(sum, without(units))) <= capacity,
    "no hold left out": lambda units, capacity: sum(units) > capacity,
    "the first hold alone left out": lambda units, capacity: sum(units) > capacity and sum(units[1:]) <= capacity,
    "the last hold alone left out": lambda units, capacity: sum(units) > capacity and sum(units[:-1]) <= capacity,
    "the capacity reached": lambda units, capacity: sum(units) >= capacity and max(map(sum, without(units))) < capacity,
    "below the capacity without any one hold": lambda units, capacity: sum(units) > capacity and max(map(sum, without(units))) < capacity,
}

# Its task sets come in another order, or not all of them.
WRONG_SETS = {
    "task sets by their lists alone": lambda count: sorted(right_sets(count)),
    "larger sets first": lambda count: sorted(right_sets(count), key=len, reverse=True),
    "equal sizes by falling lists": lambda count: sorted(right_sets(count)[::-1], key=len),
    "task sets by their bytes": lambda count: sorted(right_sets(count), key=lambda tasks: sum(1 << task for task in tasks)),
    "pairs alone": lambda count: list(itertools.combinations(range(count), 2)),
    "the largest set left out": lambda count: right_sets(count)[:-1],
}


def first_units(task, device):
    """Each hold has the units of the first."""
    holds = right_holds(task, device)
    return [Hold(hold.first, hold.last, holds[0].units) for hold in holds]


def reordered(key):
    """The boxes of a device in another order, but by size of their task sets."""
    return lambda s: sorted(right_boxes(s), key=lambda listed: (listed[0], sum(low > 0 for low, _ in listed[1]), key(listed[1])))


def tasks_in(box):
    return [task for task, (low, _) in enumerate(box) if low > 0]


# Its list of boxes is another.
WRONG_LISTS = {
    "the last task's hold weighing most": reordered(lambda box: (tasks_in(box), box[::-1])),
    "holds before task sets": reordered(lambda box: box),
    "devices backwards": lambda s: sorted(right_boxes(s), key=lambda listed: -listed[0]),
    "each box twice": lambda s: [listed for listed in right_boxes(s) for _ in range(2)],
}


def blockers_by_number(s, boxes, state):
    """A forbidden blocker is the box of the first holders by number, which need not be in the list."""
    blockers = right_blockers(s, boxes, state)
    by_number = {task: first_forbidden(s, next_state(state, task), greedy_holders) for task in blockers or ()}
    return blockers and {task: by_number[task][1] if by_number[task] else blocker for task, blocker in blockers.items()}


def busy_with_units(s, map_slice, record, task, settings):
    """Busy names the claim's whole field."""
    answer, after = right_bid(s, map_slice, record, task, settings)
    if answer[0] == "busy":
        answer = ("busy", brute.field_of(brute.action_word(s.tasks[task][record.positions[task]])))
    return answer, after


def cleaned_of(change):
    """A cleaned set with the units of its claims changed."""
    return lambda s: Set(right_cleaned(s).capacities, [[action if action[0] == RELEASE else claim(action[1], change(action)) for action in task] for task in right_cleaned(s).tasks])


def former_without_28(words, former=False):
    """The former rules know of no 28: one unit more or less is all the same to them."""
    said = right_read(words, former)
    if former and said[:2] == ("refused", 28):
        return right_read([word & 0xFF00FFFF if word >> 28 == CLAIM else word for word in words], former)
    return said


def former_with_6(words, former=False):
    """The cleaner reads by the layout that was before units."""
    said = right_read(words, former)
    place = next((place for place, word in enumerate(words) if former and word >> 28 == CLAIM and word & 0x00FF0000), None)
    return ("refused", 6, place) if place is not None and (isinstance(said, Set) or said[2] >= place) else said


# Which part of the brute search they take the place of.
WRONG = {
    "action_parts": WRONG_PARTS,
    "WORD_REFUSALS": WRONG_ORDERS,
    "held_after": WRONG_HELD,
    "just_exceeds": WRONG_CHOICES,
    "task_sets": WRONG_SETS,
    "holds_of": {"each hold with the first one's units": first_units},
    "forbidden_boxes": WRONG_LISTS,
    "blockers_of": {"blockers of the first holders by number": blockers_by_number},
    "bid_on": {"units left in Busy's device": busy_with_units},
    "cleaned": {"the cleaner dropping units": cleaned_of(lambda action: 1), "the cleaner adding a unit": cleaned_of(lambda action: brute.units_of(action) + 1)},
    "read_set": {"no 28 in the cleaner": former_without_28, "6 for units in the cleaner": former_with_6},
}


def is_noticed():
    """Whether one of the checks above fails."""
    for check in CHECKS:
        try:
            check()
        except AssertionError:
            return True
    return False


def wrong_ones_are_noticed():
    """Each of them makes one of the checks fail."""
    many()  # made by the right rules, and kept
    for part, wrongs in WRONG.items():
        for name, wrong in wrongs.items():
            with mock.patch.object(brute, part, wrong):
                assert is_noticed(), name


def sums_in_a_byte():
    """A program that adds up units in a byte isn't wrong: no claim of an accepted set has more than 8, so eight tasks hold 64 of a device at most."""
    for s in many() + [unit_users(8, [8] * 8)]:
        boxes = brute.forbidden_boxes(s)
        with mock.patch.object(brute, "just_exceeds", lambda units, capacity: sum(units) % 256 > capacity and max(sum(rest) % 256 for rest in without(units)) <= capacity):
            assert brute.forbidden_boxes(s) == boxes, s


# Those by hand first, since most of what is wrong shows there.
CHECKS = [plans_by_hand, first_box_by_hand, boxes_by_hand, choices_by_hand, bids_by_hand, cleaning_with_units, fields_of_actions, order_of_28, layout_by_bits, units_and_capacity]
CHECKS += [one_unit_as_before, blockers_by_holders, boxes_and_units, boxes_just_exceed, starts_are_open, unsafe_by_boxes, service_with_units, trials_with_units, damaged_words]

# These try the others.
WRONG_CHECKS = [wrong_ones_are_noticed, sums_in_a_byte]
