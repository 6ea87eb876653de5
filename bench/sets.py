#!/usr/bin/env python3
"""sets.py DIR: writes the sets that the benchmark runs on, four bytes a word, lowest first: DIR/NAME.set for the table, DIR/growth/FAMILY-SIZE.set for growth,
DIR/clean/NAME.set, with devices that no task claims, for the cleaner, and DIR/trials/NAME.set for trials, with what each is lent beside it in DIR/trials/NAME.trial."""
import os
import random
import struct
import sys


def claim(d, units=1):
    return 0x30000000 | (units - 1) << 16 | d


def release(d):
    return 0x40000000 | d


def save(name, capacities, tasks):
    words = [0x10000000 | c for c in capacities]
    for task in tasks:
        words += [0x20000000] + task
    words.append(0x50000000 | len(words))
    with open(os.path.join(sys.argv[1], name + ".set"), "wb") as out:
        out.write(struct.pack("<%dI" % len(words), *words))


def save_trial(name, capacities, tasks, order, rounds, share, window):
    """The set, and beside it the rounds in two bytes, lowest first, share, window, and the order, a byte a task."""
    save("trials/" + name, capacities, tasks)
    with open(os.path.join(sys.argv[1], "trials", name + ".trial"), "wb") as out:
        out.write(struct.pack("<HBB", rounds, share, window) + bytes(order))


def pairs(n, actions):
    return [a for _ in range(n) for a in actions]


# --- Families: capacities and tasks for a size n ---


def philosophers(n):
    """A ring of n philosophers: 5 to the n states, one of them dead."""
    return [1] * n, [[claim(i), claim((i + 1) % n), release(i), release((i + 1) % n)] for i in range(n)]


def one_device(n):
    """Two tasks of n claims and releases of one device: n * n forbidden boxes."""
    one = pairs(n, [claim(0), release(0)])
    return [1], [one, one]


def crossings(n):
    """Two tasks that cross n times each: n * n unsafe boxes."""
    return [1, 1], [pairs(n, [claim(0), claim(1), release(1), release(0)]), pairs(n, [claim(1), claim(0), release(0), release(1)])]


def great_box(n):
    """Two tasks that hold one device each while they claim and release their own n times, and then want the other's: one unsafe box of (2n + 1) squared states."""
    return [1] * 4, [
        [claim(0)] + pairs(n, [claim(2), release(2)]) + [claim(1), release(1), release(0)],
        [claim(1)] + pairs(n, [claim(3), release(3)]) + [claim(0), release(0), release(1)],
    ]


def hand_over_hand(n, first, second, others):
    """n holds of two devices in turn, the next claimed before the last is released; during the last hold the others are claimed too."""
    chain = [claim(first)]
    for i in range(n - 1):
        here, there = (first, second) if i % 2 == 0 else (second, first)
        chain += [claim(there), release(here)]
    last = first if n % 2 == 1 else second
    return chain + [claim(d) for d in others] + [release(d) for d in others] + [release(last)]


def fine_tiles(n):
    """Each task goes hand over hand through two devices, and claims the other task's two while it still holds its own: 2n forbidden boxes, one a hold, and some
    n * n unsafe ones of one to four states."""
    return [1] * 4, [hand_over_hand(n, 0, 1, [3, 2]), hand_over_hand(n, 2, 3, [0, 1])]


def turns(n, one, m, other):
    """The first task's actions n times over, the second's m times: at each end nothing is held, so the dead states are those of one turn of each, n * m times."""
    return [1] * 3, [pairs(n, one), pairs(m, other)]


def dead_unreached(n, m):
    """Each turn of both has one dead state, which lies in a pocket of forbidden boxes: no steps lead there from the start."""
    one = [claim(2), claim(1), release(2), claim(0), release(1), release(0)]
    return turns(n, one, m, [claim(2), claim(1), release(1), claim(0), claim(1), release(2), release(1), release(0)])


def dead_both(n, m):
    """Each turn of both has two dead states, one that is reached and one that isn't: the twenty words of docs/AUTHORS.md, again and again."""
    one = [claim(1), claim(0), claim(2), release(1), claim(1), release(0), release(1), release(2)]
    return turns(n, one, m, [claim(1), claim(0), release(0), claim(2), release(2), release(1)])


def apart(n):
    """Two tasks of n claims and releases of a device of their own: every state is open, and the plan is one word."""
    return [1, 1], [pairs(n, [claim(0), release(0)]), pairs(n, [claim(1), release(1)])]


def devices_in_turn(n):
    """Two tasks that claim and release each of n devices in turn: a forbidden box a device."""
    one = [a for d in range(n) for a in (claim(d), release(d))]
    return [1] * n, [one, one]


def nested(orders, n):
    """Each task claims the same devices in an order of its own, claims and releases one device more n times while it holds them all, and releases them: every two
    tasks exclude each other over most of the grid, once for each device."""
    extra = len(orders[0])
    own = pairs(n, [claim(extra), release(extra)])
    return [1] * (extra + 1), [[claim(d) for d in order] + own + [release(d) for d in reversed(order)] for order in orders]


def turned(n, by):
    """The devices 0 to n - 1, from `by` on and then the others."""
    return [(d + by) % n for d in range(n)]


def random_task(rng, devices, length):
    """Claims and releases at random, a device held or not held as it must be."""
    held, actions = [], []
    while len(actions) < length:
        free = [d for d in range(devices) if d not in held]
        if held and (len(held) == length - len(actions) or not free or rng.random() < 0.5):
            actions.append(release(held.pop(rng.randrange(len(held)))))
        else:
            held.append(rng.choice(free))
            actions.append(claim(held[-1]))
    return actions


def tangled(seed, tasks, length, devices):
    """Tasks of claims and releases at random, the same for the same seed: their forbidden boxes overlap, and some states are unsafe."""
    rng = random.Random(seed)
    return [1] * devices, [random_task(rng, devices, length) for _ in range(tasks)]


def spread(tasks):
    """The tasks with every device number doubled: of twice as many devices every other one is claimed by nobody."""
    return [[action & 0xFFFF0000 | 2 * (action & 15) for action in task] for task in tasks]


# --- Claims of several units ---


def in_turn(n, units):
    """n claims and releases of device 0, of so many units in turn."""
    return [a for i in range(n) for a in (claim(0, units[i % len(units)]), release(0))]


def crossed_units(n):
    """Two devices of three units, and two tasks that cross n times each: they hold two units, or by turns all three, of one device and want two of the other's."""
    def turn(i, first, second):
        return [claim(first, 2 + i % 2), claim(second, 2), release(second), release(first)]
    return [3, 3], [[a for i in range(n) for a in turn(i, *devices)] for devices in ((0, 1), (1, 0))]


def units_ring(n, m):
    """A pool of four units, and three tasks that wait in a ring. The first wants three of the pool, for which it waits for the second alone, though the third has some of it
    too; the third is in the ring for another device. The third goes round m times, the others n times."""
    first = [claim(1), claim(0, 3), release(0), release(1)]
    third = [claim(2), claim(0), claim(1), release(1), release(0), release(2)]
    second = [claim(0, 2), claim(2), release(2), release(0)]
    return [4, 1, 1], [pairs(n, first), pairs(m, third), pairs(n, second)]


def tangled_units(seed, tasks, length, devices, capacity):
    """As tangled, of devices of several units: each claim takes one to all of them at random."""
    rng = random.Random(seed)
    with_units = lambda action: claim(action & 15, rng.randint(1, capacity)) if action >> 28 == 3 else action
    return [capacity] * devices, [[with_units(action) for action in random_task(rng, devices, length)] for _ in range(tasks)]


def named(tasks):
    """The longest order, 255 places: these tasks in turn."""
    return [tasks[i % len(tasks)] for i in range(255)]


for folder in ("growth", "clean", "trials"):
    os.makedirs(os.path.join(sys.argv[1], folder), exist_ok=True)

# --- The table ---

# Example a of docs/SCOPE.md.
crossing = [[claim(0), claim(1), release(1), release(0)], [claim(1), claim(0), release(0), release(1)]]
save("a", [1, 1], crossing)
# 15,625 states.
save("philosophers6", *philosophers(6))
# 16,129 forbidden boxes, the most there are.
save("one_device", *one_device(127))
capacities, (one, other) = one_device(127)
save("one_device_idle", capacities, [[]] * 3 + [one, other] + [[]] * 3)
# 3,969 unsafe boxes.
save("crossings", *crossings(63))
capacities, (there, back) = crossings(63)
save("crossings_idle", capacities, [there] + [[]] * 6 + [back])
# One unsafe box of 63,001 states.
save("great_box", *great_box(125))
# 250 forbidden boxes and 15,749 unsafe ones.
save("fine_tiles", *fine_tiles(125))
# 1,302 dead states of which none is reached; and 1,302 that are and 1,302 that aren't.
save("dead_unreached", *dead_unreached(42, 31))
save("dead_both", *dead_both(31, 42))
# As many words as an accepted list can have, 533: 16 devices, eight tasks, two of them of 254 actions.
save("longest_accepted", [1] * 16, [[]] * 3 + [[a for i in range(127) for a in (claim(d + i % 8), release(d + i % 8))] for d in (0, 8)] + [[]] * 3)
# As many words as a list can have before its grid is looked at: 16 devices and eight tasks of 254 actions, 2,057 words, refused with 12. It is read and no more,
# which is nearly all that a bid costs.
save("longest", [1] * 16, [[a for i in range(127) for a in (claim(d + i % 2 * 8), release(d + i % 2 * 8))] for d in range(8)])

# Eight tasks and few states, so that what the analysis does for each device and each set of tasks weighs most: 16 devices that two tasks claim one after the other, and one
# device of three units that all eight claim, 70 forbidden boxes.
capacities, tasks = devices_in_turn(16)
save("devices16_idle", capacities, [[]] * 3 + tasks + [[]] * 3)
save("pool8", [3], [[claim(0), release(0)]] * 8)

# Three to five tasks whose forbidden boxes overlap: by a seed, and the worst case, where each of 45 boxes holds a quarter of the grid.
for tasks, length, devices, seeds in [(3, 38, 2, [1, 4]), (3, 38, 4, [2, 6]), (3, 38, 8, [2, 6]), (3, 38, 16, [1]), (4, 14, 4, [1]), (5, 8, 2, [3])]:
    for seed in seeds:
        save("tangled_%d_%d_%d" % (tasks, devices, seed), *tangled(seed, tasks, length, devices))
save("nested", *nested([turned(15, 0), turned(15, 5), turned(15, 10)], 4))

# Claims of several units. Two tasks that claim two units of three 127 times: as many forbidden boxes as one_device has.
save("units_two_of_three", [3], [in_turn(127, [2])] * 2)
# Three tasks over a gateway of three channels, 19 times each, one to three channels in turn: forbidden boxes of two tasks and of three that overlap.
save("units_gateway", [3], [in_turn(19, units) for units in ([1, 2, 3], [2, 3, 1], [1, 1, 2])])
# Eight tasks of one to four units of eight: forbidden boxes of three to five tasks.
save("units_pool8", [8], [in_turn(1, [units]) for units in (1, 2, 3, 4, 1, 2, 3, 4)])
# Two tasks that cross 63 times: 3,969 unsafe boxes, as crossings has.
save("units_crossings", *crossed_units(63))
# Three to five tasks at random over devices of three or four units, so that the holders of a device are more than its first forbidden box needs.
save("units_tangled_3_4", *tangled_units(2, 3, 38, 4, 3))
save("units_tangled_5_2", *tangled_units(3, 5, 8, 2, 4))
# 486 rings of three tasks, with unsafe boxes that depend on which of the holders a task waits for.
save("units_rings", *units_ring(9, 6))
# 16 devices of two units, which two tasks claim whole, one after the other.
save("units_devices16", [2] * 16, [[a for d in range(16) for a in (claim(d, 2), release(d))]] * 2)

# --- Cleaning ---

# Example a with four devices, of which device 1 and device 3 are claimed by nobody.
save("clean/a_spread", [1] * 4, spread([[claim(0), claim(1), release(1), release(0)], [claim(1), claim(0), release(0), release(1)]]))
# As many words as an accepted list could have, 533, of which 8 devices go: as longest_accepted, but that both tasks have the same eight devices.
save("clean/longest_spread", [1] * 16, spread([[]] * 3 + [[a for i in range(127) for a in (claim(i % 8), release(i % 8))]] * 2 + [[]] * 3))
# Eight tasks, and 15 of 16 devices go.
save("clean/pool8_of_16", [1] * 15 + [3], [[claim(15), release(15)]] * 8)
# Two tasks of 254 actions that claim two to four units of every other one of 16 devices.
save("clean/units_spread", [4] * 16, spread([[a for i in range(127) for a in (claim(i % 8, 2 + i % 3), release(i % 8))]] * 2))

# --- Trials ---

MOST = 65535  # rounds: with an order of 255 as many bids as a trial can make, 16,711,425
MILLIONS = 8192  # rounds: with an order of 255 two million bids


def own(d):
    """A claim and a release of one device."""
    return [claim(d), release(d)]


# Sets that wait. With a share of 1 and a window of 255 a task that was granted once waits for the sake of one that the order doesn't name: the last, if nothing else is
# said. Two tasks that wait so, by turns.
save_trial("spent", [1] * 3, [own(0), own(1), own(2)], named([0, 1]), MOST, 1, 255)
# One that waits so, and holds the device that another wants.
save_trial("busy_and_spent", [1] * 2, [own(0), own(0), own(1)], named([0, 1]), MILLIONS, 1, 255)
# Seven that wait so for the sake of the first, which the yardstick looks at last.
save_trial("eight_spent", [1] * 8, [own(d) for d in range(8)], named(range(1, 8)), MILLIONS, 1, 255)
# Seven of which three wait so, three are busy and one is held.
save_trial("eight_waiting", [1] * 5, crossing + [own(2), own(2), own(3), own(3), own(3), own(4)], named(range(7)), MILLIONS, 1, 255)

# Of two tasks one is named: it goes to its end, and its bids are answered Finished from then on.
save_trial("finished", [1, 1], crossing, named([0]), MILLIONS, 255, 255)

# To the end: an order that names every task once, and as many rounds as there are actions. The last of these ends within a round.
save_trial("a", [1, 1], crossing, [0, 1], 8, 1, 2)
save_trial("dead_both", *dead_both(31, 42), [0, 1], 500, 2, 5)
save_trial("tangled_5_2_3", *tangled(3, 5, 8, 2), range(5), 40, 2, 8)

# --- Growth: each family from a few states to nearly as many as there can be ---

for family, sizes in [
    (apart, [4, 8, 16, 32, 64, 127]),
    (one_device, [4, 8, 16, 32, 64, 127]),
    (crossings, [4, 6, 8, 12, 16, 24, 32, 45, 63]),
    (great_box, [4, 8, 16, 32, 64, 125]),
    (fine_tiles, [4, 8, 16, 32, 64, 125]),
    (philosophers, [2, 3, 4, 5, 6]),
]:
    for n in sizes:
        save("growth/%s-%03d" % (family.__name__, n), *family(n))
