/* The console arbiter for hosts in C and C++: the calls of libarbiter.a.
 *
 * A set is a list of 32-bit words that says which devices there are and in which order each task claims and releases them
 * (docs/AUTHORS.md). arbiter_analyse writes its map, a byte for each state of progress, and its plan, a list of boxes. In service
 * arbiter_bid is asked before every step of a task and says whether it may be made now; it sees to it that no task takes all the grants while
 * others could go on; arbiter_trial says beforehand what a share and a window do. arbiter_locate questions a plan that was stored, without its set.
 * arbiter_clean mends a set that was stored with devices which no task claims. docs/HOSTS.md tells the whole life of a set.
 *
 * What every call does and asks:
 * - It uses no heap, no global state, no signal and no callback, and always returns. arbiter_analyse needs some 300 KiB of stack, the others
 *   very little.
 * - No content of a slice or record is undefined input: what a call finds wrong comes back as a refusal.
 * - Every pointer is non-null, also where its length is 0 (ARBITER_LEND sees to that), and aligned for its type; its length counts elements,
 *   not bytes.
 * - Memory that a call writes overlaps no other memory lent to the same call, and nobody else uses it meanwhile.
 * - Nothing lent is kept after the call returns.
 * - Its answer must be looked at; compilers complain of a call whose answer isn't used.
 *
 * The calls come first, with their numbers and structs. After them stand conveniences: small functions over the same memory that are compiled
 * with the host. They are tested, not proved.
 *
 * Constants have the names of the proved source with ARBITER_ before them; hosts/constants.py compares them.
 * For x86-64 with the System V calling convention (Linux and its kin). C99 or later, C++98 or later.
 */
#ifndef ARBITER_H
#define ARBITER_H

#if !defined(__x86_64__) || !defined(__LP64__) || !defined(__ELF__) || defined(_WIN32) || defined(__CYGWIN__)
#error "libarbiter.a is made for x86-64 with the System V calling convention: 64-bit Linux and its kin, not x32, Windows or another processor"
#endif

#include <stddef.h>
#include <stdint.h>

/* The version of this header: major times 10,000, minor times 100, patch. Header and library must be of the same one, since structs and
 * numbers may differ between two: compare it with arbiter_version() once, when the host starts, and stop if they differ. */
#define ARBITER_VERSION 60000

/* The limits of a set. */
#define ARBITER_MAX_WORDS 4096
#define ARBITER_MAX_DEVICES 16
#define ARBITER_MAX_CAPACITY 8  /* units of one device */
#define ARBITER_MAX_TASKS 8     /* also the number of positions in a record and in a state, of counts in a record, and of rows in a trial's result */
#define ARBITER_MAX_ACTIONS 255 /* claims and releases of one task */
#define ARBITER_MAX_GRID 65536  /* states: a map slice of this many bytes fits every set */

/* The largest share and the largest window of a bid or a trial; the smallest of each is 1. With both at their largest no share is ever spent. */
#define ARBITER_MAX_SETTING 255

/* The longest order of a trial; the shortest has one task. */
#define ARBITER_MAX_ORDER 255

/* A word is its kind times this, plus its field: word / ARBITER_FIELDS is the kind, word % ARBITER_FIELDS the field. */
#define ARBITER_FIELDS 0x10000000

/* A CLAIM's field is its extra units, a number less than ARBITER_EXTRA_UNITS, times ARBITER_DEVICES, plus its device: field % ARBITER_DEVICES is the
 * device, field / ARBITER_DEVICES the extra units. */
#define ARBITER_DEVICES 0x10000
#define ARBITER_EXTRA_UNITS 0x100

/* The kinds of a set's words; a plan ends with END too. */
#define ARBITER_DEVICE 1  /* field: its capacity, 1 to 8, which is how many units it has; some task claims it */
#define ARBITER_TASK 2    /* field: 0 */
#define ARBITER_CLAIM 3   /* field: bits 27 to 24 are 0, 23 to 16 the extra units, 15 to 0 the device */
#define ARBITER_RELEASE 4 /* field: the device; all units of it that the task holds are given back */
#define ARBITER_END 5     /* field: the number of words before it */

/* A claim takes one unit of its device and the extra units besides, all of them together; with 0 extra ones it is of one unit. A radio patch needs two
 * channels of a gateway together. If the gateway is device 0, 0x10000003 declares its three channels, 0x30010000 claims two of them, one and one extra,
 * and 0x40000000 gives both back; 0x30000000 claims one, for a call. At no time are more units of a device held than it has: beside the patch there is
 * room for one call, and another patch waits (BUSY) while fewer than two channels are free. A claim of four would be refused with 28. */

/* The kinds of a plan's words. */
#define ARBITER_FORBIDDEN_BOX 6    /* field: the device that would have more units held than it has; a SIDE for each task follows */
#define ARBITER_UNSAFE_BOX 7       /* field: 0; a SIDE for each task follows */
#define ARBITER_SIDE 8             /* field: bits 23 to 16 the task, 15 to 8 its lowest, 7 to 0 its highest position in the box */
#define ARBITER_DEAD_STATE 9       /* field: the rank of a dead state to which allowed steps lead from the start */
#define ARBITER_UNREACHED_STATE 10 /* field: the rank of a dead state that no run can enter */

/* The map's bytes. */
#define ARBITER_OPEN 0      /* the end can be reached from this state */
#define ARBITER_FORBIDDEN 1 /* some device would have more units held than it has */
#define ARBITER_UNSAFE 2    /* no steps lead from here to the end */
#define ARBITER_DEAD 3      /* unsafe, and no task can make a step */

/* Not a byte of a map. OPEN is 0, so a map of zeros that no analysis wrote would grant everything. Fill the slice with this before the analysis,
 * memset(map, ARBITER_NOT_ANALYSED, map_len): then the first bid on a map that was never written is refused with 16. */
#define ARBITER_NOT_ANALYSED 0xFF

/* What a refused route leaves in every byte of its slice. */
#define ARBITER_NO_STEP 255

/* A rank is a state's number, counted from 0: its positions read as one number, task 0 weighing most. With A, B, C the numbers of actions of
 * tasks 0, 1, 2 and a, b, c their positions, it is (a * (B + 1) + b) * (C + 1) + c, and so on. The map has a state's byte at its rank.
 * arbiter_positions turns a rank into positions, arbiter_rank positions into a rank. */

/* The kinds of an answer. An answer that is all zeros is a refusal, so that one never filled in can't pass for a grant. */
#define ARBITER_REFUSED 0          /* the call was turned back; refusal: why; value: the place, see the refusals */
#define ARBITER_ACCEPTED 1         /* arbiter_read: the set is well formed; value: its number of states, the map's length */
#define ARBITER_PLANNED 2          /* arbiter_analyse: map and plan are written; value: the number of plan words; beside it the parts per thousand */
#define ARBITER_ROUTED 3           /* arbiter_route: the route is written; value: its length */
#define ARBITER_GRANTED 4          /* arbiter_bid: the task makes its next action now; the record has moved on by it */
#define ARBITER_FINISHED 5         /* arbiter_bid: the task has no action left; don't ask for it before arbiter_again */
#define ARBITER_BUSY 6             /* arbiter_bid: the task waits and asks again later; value: the device of which too few units are free, without the units */
#define ARBITER_HELD 7             /* arbiter_bid: the task waits and asks again later, or tasks would wait for ever; value: the unsafe next state's rank */
#define ARBITER_RESTARTED 8        /* arbiter_again: every task is at its start again */
#define ARBITER_IN_FORBIDDEN_BOX 9 /* arbiter_locate: a forbidden box holds the state; value: the index of the first word of the first that does */
#define ARBITER_IN_UNSAFE_BOX 10   /* arbiter_locate: an unsafe box holds the state, and no forbidden one; value: the same of the first that does */
#define ARBITER_IN_NO_BOX 11       /* arbiter_locate: no box holds the state */
#define ARBITER_CLEANED 12         /* arbiter_clean: the cleaned set is written; value: its number of words */
#define ARBITER_SHARE_SPENT 13     /* arbiter_bid: the task waits and asks again later: it has had its share, and another task is to go first */
#define ARBITER_TRIED 14           /* arbiter_trial: the bids are made and counted; value: how many they were; beside it how they were answered */

/* The refusals of a set, 1 to 12, 24 and 28. The place is the faulty word's index, counted from 0, unless said otherwise.
 * All are the set's fault, and each comes in the same way from every call that is lent that set: return it to its author. Only arbiter_clean
 * never brings 24, which it mends. */
#define ARBITER_NO_WORDS 1            /* place: 0 */
#define ARBITER_TOO_MANY_WORDS 2      /* place: 4,096 */
#define ARBITER_WORD_AFTER_END 3
#define ARBITER_UNKNOWN_KIND 4
#define ARBITER_OUT_OF_ORDER 5        /* a DEVICE after a TASK; a CLAIM, RELEASE or END before any */
#define ARBITER_FIELD_NOT_ALLOWED 6   /* a CLAIM's, if its device isn't declared or a bit from 27 to 24 is set */
#define ARBITER_TOO_MANY 7            /* the 17th device, 9th task, or 256th action of a task */
#define ARBITER_CLAIM_OF_HELD 8
#define ARBITER_RELEASE_OF_NOT_HELD 9
#define ARBITER_STILL_HELD 10         /* a task closes, at the next TASK or at END, while it holds something */
#define ARBITER_NO_END 11             /* place: the number of words */
#define ARBITER_GRID_TOO_LARGE 12     /* place: END's index */
#define ARBITER_UNCLAIMED_DEVICE 24   /* place: the number of the lowest device that no task claims; looked at after 11 and before 12 */
#define ARBITER_TOO_MANY_UNITS 28     /* a CLAIM of more units than the device has; looked at after 7 and before 8 */

/* The refusals of lent slices, input bytes, records and calls. */
#define ARBITER_MAP_TOO_SHORT 13   /* place: the length that the map needs; lend that much */
#define ARBITER_PLAN_TOO_SHORT 14  /* place: the plan slice's length; the map is finished all the same: lend a longer slice, or do without the plan */
#define ARBITER_BYTES_NOT_WORDS 15 /* place: the number of whole words; for whoever reads a set from bytes, no call of the library answers it */
#define ARBITER_BAD_RECORD 16      /* place: 0; the record isn't one that a service of this set and map leaves: stop, see who wrote it; in a bid also if
                                    * its counts together aren't less than the window, which happens where a host makes the window smaller */
#define ARBITER_NO_SUCH_TASK 17    /* place: the number asked for; the host's slip */
#define ARBITER_BAD_MAP_BYTE 18    /* place: the state's rank; the map is damaged or another set's: stop, analyse the set anew */
#define ARBITER_NOT_AT_END 19      /* place: the state's rank; some task isn't finished: bid on */
#define ARBITER_NO_ROUTE 20        /* place: the state's rank; the state is unsafe: no record in service ever is */
#define ARBITER_ROUTE_TOO_SHORT 21 /* place: the length that the route needs; lend that much */
#define ARBITER_CLEAN_TOO_SHORT 25 /* place: the length that the cleaned set needs; lend that much */
#define ARBITER_BAD_SETTING 26     /* place: 0; the share or the window of a bid or a trial isn't 1 to 255: the host's slip */
#define ARBITER_BAD_ORDER 27       /* place: 0 for an order without tasks, else the first place that names a task which the set doesn't have, or is 255,
                                    * which no order has: the host's slip, or that of whoever wrote the order */

/* The refusals of a stored plan. */
#define ARBITER_BAD_TASK_COUNT 22 /* place: 0; the task count isn't 1 to 8: the host's slip */
#define ARBITER_OUTSIDE_LAYOUT 23 /* place: the first word that no plan has there, or the number of words if END is missing; the plan was cut or
                                   * damaged, or isn't one for so many tasks */

/* What a call answers. refusal is 0 exactly where kind is not ARBITER_REFUSED. value is what the kind says, and 0 where it says nothing. */
typedef struct arbiter_answer {
    uint32_t kind;
    uint32_t refusal;
    uint64_t value;
} arbiter_answer;

/* What an analysis answers: how much of the grid is unsafe stands beside the answer, in parts per thousand. If the answer is PLANNED,
 *
 *     1,000 * unsafe states = quotient * permitted states + remainder, and the remainder is less than the permitted states,
 *
 * where the permitted states are those whose map byte is OPEN, UNSAFE or DEAD, and the unsafe ones those with UNSAFE or DEAD. So of every 1,000
 * permitted states quotient are unsafe, rounded down, and the remainder says exactly what was cut off. The quotient is at most 999. Both are 0 exactly
 * if no state is unsafe. In a refused answer, 14 too, both are 0 and tell nothing. */
typedef struct arbiter_analysis {
    arbiter_answer answer;
    uint32_t quotient;
    uint32_t remainder;
} arbiter_analysis;

/* The broker's record: for each task how many of its actions are done; the number of grants so far, which goes from 4,294,967,295 to 0; and for each
 * task its grants in the present window. Positions and counts of tasks that the set doesn't have are 0. Start from arbiter_fresh, and let nobody but
 * the calls write it. A record that a version before 5.0.0 stored has 12 bytes: the same 12 with eight zero bytes behind them are this record. */
typedef struct arbiter_record {
    uint8_t positions[ARBITER_MAX_TASKS];
    uint32_t grants;
    uint8_t counts[ARBITER_MAX_TASKS];
} arbiter_record;

/* A state to question a stored plan with: for each task how many of its actions are done. Positions past the task count are unread. */
typedef struct arbiter_state {
    uint8_t positions[ARBITER_MAX_TASKS];
} arbiter_state;

/* A task's row in a trial: how many of its bids were answered GRANTED, BUSY, HELD and SHARE_SPENT. */
typedef struct arbiter_tally {
    uint32_t granted;
    uint32_t busy;
    uint32_t held;
    uint32_t share_spent;
} arbiter_tally;

/* What a trial answers: beside the answer a row for each task, by its number, and how many bids of all tasks were answered FINISHED. If the answer is
 * TRIED, the tallies of all rows and finished add up to its value, the bids made; rows of tasks that the set doesn't have are 0. In a refused answer
 * every row and finished are 0 and tell nothing, also if bids were made before the one that was refused. */
typedef struct arbiter_trial_result {
    arbiter_answer answer;
    arbiter_tally rows[ARBITER_MAX_TASKS];
    uint64_t finished;
} arbiter_trial_result;

/* The compiler must lay all six out as the library does. */
#if defined(__cplusplus) && __cplusplus >= 201103L
#define ARBITER_ASSERT(name, condition) static_assert(condition, #name)
#elif !defined(__cplusplus) && defined(__STDC_VERSION__) && __STDC_VERSION__ >= 201112L
#define ARBITER_ASSERT(name, condition) _Static_assert(condition, #name)
#else
#define ARBITER_ASSERT(name, condition) typedef char arbiter_assert_##name[(condition) ? 1 : -1]
#endif
ARBITER_ASSERT(size_of_answer, sizeof(arbiter_answer) == 16);
ARBITER_ASSERT(place_of_kind, offsetof(arbiter_answer, kind) == 0);
ARBITER_ASSERT(place_of_refusal, offsetof(arbiter_answer, refusal) == 4);
ARBITER_ASSERT(place_of_value, offsetof(arbiter_answer, value) == 8);
ARBITER_ASSERT(size_of_analysis, sizeof(arbiter_analysis) == 24);
ARBITER_ASSERT(place_of_answer, offsetof(arbiter_analysis, answer) == 0);
ARBITER_ASSERT(place_of_quotient, offsetof(arbiter_analysis, quotient) == 16);
ARBITER_ASSERT(place_of_remainder, offsetof(arbiter_analysis, remainder) == 20);
ARBITER_ASSERT(size_of_record, sizeof(arbiter_record) == 20);
ARBITER_ASSERT(place_of_positions, offsetof(arbiter_record, positions) == 0);
ARBITER_ASSERT(place_of_grants, offsetof(arbiter_record, grants) == 8);
ARBITER_ASSERT(place_of_counts, offsetof(arbiter_record, counts) == 12);
ARBITER_ASSERT(size_of_state, sizeof(arbiter_state) == 8);
ARBITER_ASSERT(place_of_state_positions, offsetof(arbiter_state, positions) == 0);
ARBITER_ASSERT(size_of_tally, sizeof(arbiter_tally) == 16);
ARBITER_ASSERT(place_of_granted, offsetof(arbiter_tally, granted) == 0);
ARBITER_ASSERT(place_of_busy, offsetof(arbiter_tally, busy) == 4);
ARBITER_ASSERT(place_of_held, offsetof(arbiter_tally, held) == 8);
ARBITER_ASSERT(place_of_share_spent, offsetof(arbiter_tally, share_spent) == 12);
ARBITER_ASSERT(size_of_trial_result, sizeof(arbiter_trial_result) == 152);
ARBITER_ASSERT(place_of_trial_answer, offsetof(arbiter_trial_result, answer) == 0);
ARBITER_ASSERT(place_of_rows, offsetof(arbiter_trial_result, rows) == 16);
ARBITER_ASSERT(place_of_finished, offsetof(arbiter_trial_result, finished) == 144);
ARBITER_ASSERT(size_of_length, sizeof(size_t) == 8);
#undef ARBITER_ASSERT

/* What stands before every call, so that a compiler complains where its answer isn't used: a bid that nobody looks at is no grant. */
#if defined(__cplusplus) && __cplusplus >= 201703L
#define ARBITER_MUST_USE [[nodiscard]]
#elif !defined(__cplusplus) && defined(__STDC_VERSION__) && __STDC_VERSION__ >= 202311L
#define ARBITER_MUST_USE [[nodiscard]]
#elif defined(__GNUC__)
#define ARBITER_MUST_USE __attribute__((warn_unused_result))
#else
#define ARBITER_MUST_USE
#endif

/* ARBITER_LEND(pointer) is the pointer itself, with its own type; or, if it is NULL, an address to lend for a slice of length 0: non-null and
 * aligned, as the calls ask. An empty std::vector or span may give NULL. It is an address in the first page, where nothing lies, so that a NULL
 * lent by mistake with another length still ends in a fault. The argument has a pointer's type (in C++, nullptr by itself has none) and is
 * evaluated once. C needs __typeof__ for it, which GCC, Clang and their kin have in every mode. */
#ifdef __cplusplus
extern "C++" {
template <typename Element> inline Element *arbiter_lend(Element *pointer) {
    return pointer ? pointer : reinterpret_cast<Element *>(sizeof(uint64_t));
}
}
#define ARBITER_LEND(pointer) arbiter_lend(pointer)
#else
static inline void *arbiter_lend(const void *pointer) { return (void *)(pointer ? (uintptr_t)pointer : sizeof(uint64_t)); }
#define ARBITER_LEND(pointer) ((__typeof__(((void)0, (pointer))))arbiter_lend(pointer))
#endif

#ifdef __cplusplus
extern "C" {
#endif

/* The library's own version; see ARBITER_VERSION. */
ARBITER_MUST_USE uint32_t arbiter_version(void);

/* Reads a set. ACCEPTED with its number of states, or REFUSED 1 to 12, 24 or 28.
 * A set that may be empty: ARBITER_LEND(set). */
ARBITER_MUST_USE arbiter_answer arbiter_read(const uint32_t *set, size_t set_len);

/* Analyses a set. PLANNED with the number of plan words, and with the parts per thousand beside it; or REFUSED 1 to 14, 24 or 28.
 * Accepted: map[0] to map[states - 1] and the plan's words are written; what lies beyond stays as it was, and isn't counted either.
 * 14 leaves the finished map, and zeros in the whole plan slice; the others leave both slices untouched.
 * Fill the map slice with ARBITER_NOT_ANALYSED before. A host that wants no plan lends 0 words for it and goes on at 14; if it wants the parts per
 * thousand all the same, it counts the map's bytes itself.
 * Slices that may be empty: ARBITER_LEND(set), ARBITER_LEND(map), ARBITER_LEND(plan). */
ARBITER_MUST_USE arbiter_analysis arbiter_analyse(const uint32_t *set, size_t set_len, uint8_t *map, size_t map_len, uint32_t *plan,
                                                  size_t plan_len);

/* A record at the start of every task, with no grants and no counts: all zeros. */
ARBITER_MUST_USE arbiter_record arbiter_fresh(void);

/* May this task make its next action? GRANTED (the record then counts it as made), FINISHED, BUSY with the device, HELD with the next
 * state's rank, SHARE_SPENT, or REFUSED 1 to 13, 16, 17, 18, 24, 26 or 28. Only GRANTED changes the record.
 * share and window are 1 to 255 each, else it is 26. A grant adds 1 to the task's count; if the counts then add up to the window, all of them become
 * 0 with that same grant. A bid that would be granted is SHARE_SPENT instead if the task's count is the share or more, and another task, whose count
 * is less than the share, would be granted now. So another task is to go first: with the same share the answer stays the same until one is granted
 * something. It may come for a release too. A share that isn't less than the window is never spent.
 * 16 comes for positions that the set doesn't have, for a count of a task that it doesn't have, if the record's state isn't open in the map, and if
 * the counts together (arbiter_window_grants) aren't less than the window: docs/HOSTS.md, "Share and window", says how a host makes it smaller.
 * Slices that may be empty: ARBITER_LEND(set), ARBITER_LEND(map). */
ARBITER_MUST_USE arbiter_answer arbiter_bid(arbiter_record *record, const uint32_t *set, size_t set_len, const uint8_t *map, size_t map_len,
                                            size_t task, uint32_t share, uint32_t window);

/* Starts every task anew once all are finished; the grant number stays, and the counts become 0. RESTARTED, or REFUSED 1 to 12, 16, 19, 24 or 28,
 * which changes nothing. 16 comes for positions and counts that the set doesn't have; there is no window here to hold the counts to.
 * A set that may be empty: ARBITER_LEND(set). */
ARBITER_MUST_USE arbiter_answer arbiter_again(arbiter_record *record, const uint32_t *set, size_t set_len);

/* The steps from the record's state to the end, one byte a step: always the lowest task that can go on. ROUTED with their number, or
 * REFUSED 1 to 13, 16, 18, 20, 21, 24 or 28. 16 comes for positions and counts that the set doesn't have, and if the state is forbidden in the map.
 * A route looks at no shares, so a bid on the way that it shows may still be SHARE_SPENT. A route slice of set_len bytes is always long enough. The
 * bytes beyond the route stay as they were; a refusal fills the whole slice with ARBITER_NO_STEP.
 * Slices that may be empty: ARBITER_LEND(set), ARBITER_LEND(map), ARBITER_LEND(route). */
ARBITER_MUST_USE arbiter_answer arbiter_route(arbiter_record record, const uint32_t *set, size_t set_len, const uint8_t *map, size_t map_len,
                                              uint8_t *route, size_t route_len);

/* Where does this state lie in a plan for so many tasks? IN_FORBIDDEN_BOX or IN_UNSAFE_BOX with the index of the box's first word, forbidden
 * boxes first and of each kind the first that holds the state; IN_NO_BOX; or REFUSED 22 or 23, whatever the state.
 * It needs the plan's words up to and with END, and no more than that: no set, map or record. The words are looked at to the last before any of
 * them is answered from, so what is answered is true of the whole plan. Positions past the task count are unread; no position is wrong by
 * itself, and one above every box lies in none. Nothing is written.
 * For the plan that arbiter_analyse wrote, and a state of its set: IN_FORBIDDEN_BOX where the map has FORBIDDEN, IN_UNSAFE_BOX where it has UNSAFE
 * or DEAD, IN_NO_BOX where it has OPEN. Whose plan it is, the words don't say.
 * A plan that may be empty: ARBITER_LEND(plan). arbiter_next_box tells the box at the index. */
ARBITER_MUST_USE arbiter_answer arbiter_locate(arbiter_state state, const uint32_t *plan, size_t plan_len, size_t tasks);

/* Writes the set again without the devices that no task claims, for sets that were stored before 24 was a refusal; the others are numbered anew,
 * from 0 in their old order. CLEANED with the number of words written, or REFUSED 1 to 12 or 28, by the rules that had no 24, or 25, the last.
 * A slice of set_len words is always long enough. The words beyond the cleaned set stay as they were; a refusal leaves the whole slice untouched.
 * arbiter_read accepts what is written. Tasks and actions stay, and each device that is kept has its capacity and its claims, with their units. So the cleaned set has
 * the old one's map, byte for byte, and a record goes on with it; BUSY and the plan's forbidden boxes tell the new device numbers. A set that has no
 * such device comes back word for word.
 * Slices that may be empty: ARBITER_LEND(set), ARBITER_LEND(clean). */
ARBITER_MUST_USE arbiter_answer arbiter_clean(const uint32_t *set, size_t set_len, uint32_t *clean, size_t clean_len);

/* What do this share and this window do? A trial makes bids on a fresh record of its own, as arbiter_bid answers them: down the order, whose bytes are
 * tasks' numbers, round after round, so many rounds. It looks before each bid whether every task is finished, and stops there early. A task that stands
 * in the order twice bids twice in each round; one that doesn't stand there never bids, and others may wait for it all the time.
 * TRIED with the number of bids made, and beside it how they were answered: a row for each task, and the bids answered FINISHED together. Or REFUSED 1
 * to 13, 24, 26, 27 or 28, whatever rounds is, or 16 or 18 where a bid is refused, which ends the trial without rows: both only for a map that isn't the
 * set's own. The order has 1 to 255 tasks of the set, each as often as wanted. With no rounds, or a set without actions, no bid is made.
 * Nothing lent is changed, and no record is lent, so it may be made at any time, in service too.
 * rounds has 16 bits: a larger number must not be cut on its way into the call. 65,535 rounds of 255 tasks are 16,711,425 bids, the most that a trial
 * can make and by far the longest call. With the set's own map and every task in the order, as many rounds as the set has actions bring every task home
 * under every share and window, and more rounds cost nothing.
 * Slices that may be empty: ARBITER_LEND(set), ARBITER_LEND(map), ARBITER_LEND(order). */
ARBITER_MUST_USE arbiter_trial_result arbiter_trial(const uint32_t *set, size_t set_len, const uint8_t *map, size_t map_len, const uint8_t *order,
                                                    size_t order_len, uint16_t rounds, uint32_t share, uint32_t window);

#ifdef __cplusplus
}
#endif

/* Conveniences. Tested with the calls (hosts/c/helpers_test.c), not proved, and not part of the archive.
 *
 * They use no heap and nothing of the C library, change only what is said, and read nothing beyond the lengths that they are given, whatever
 * stands there. What they answer has its meaning for a set that arbiter_read accepted, and a record of its service; for others it is just some
 * number, and nothing worse. NULL with length 0 is allowed here. */

/* A word's kind, and its field. */
static inline uint32_t arbiter_word_kind(uint32_t word) { return word / ARBITER_FIELDS; }
static inline uint32_t arbiter_word_field(uint32_t word) { return word % ARBITER_FIELDS; }

/* 1 for a CLAIM or a RELEASE, 0 for any other word. */
static inline int arbiter_is_action(uint32_t word) {
    return arbiter_word_kind(word) == ARBITER_CLAIM || arbiter_word_kind(word) == ARBITER_RELEASE;
}

/* The device that a CLAIM or a RELEASE names: bits 15 to 0 of a CLAIM, whose units aren't part of it, and the whole field of a RELEASE. */
static inline uint32_t arbiter_action_device(uint32_t action) {
    return arbiter_word_kind(action) == ARBITER_CLAIM ? action % ARBITER_DEVICES : arbiter_word_field(action);
}

/* How many units a CLAIM takes: one, and the extra ones. 0 for any other word. */
static inline uint32_t arbiter_claim_units(uint32_t action) {
    return arbiter_word_kind(action) == ARBITER_CLAIM ? action / ARBITER_DEVICES % ARBITER_EXTRA_UNITS + 1 : 0;
}

/* How many of these words are of this kind. */
static inline size_t arbiter_count(const uint32_t *words, size_t len, uint32_t kind) {
    size_t found = 0;
    for (size_t i = 0; i < len; i++) {
        if (arbiter_word_kind(words[i]) == kind) found++;
    }
    return found;
}

/* How many tasks the set has, never over 8. */
static inline size_t arbiter_task_count(const uint32_t *set, size_t set_len) {
    size_t found = arbiter_count(set, set_len, ARBITER_TASK);
    return found < ARBITER_MAX_TASKS ? found : ARBITER_MAX_TASKS;
}

/* How many devices the set has, never over 16. The word of device d is set[d], its field the capacity. */
static inline size_t arbiter_device_count(const uint32_t *set, size_t set_len) {
    size_t found = arbiter_count(set, set_len, ARBITER_DEVICE);
    return found < ARBITER_MAX_DEVICES ? found : ARBITER_MAX_DEVICES;
}

/* 1 if some task claims the device, 0 if not. In a set that arbiter_clean takes, the devices that are claimed are those that it keeps, and the new
 * number of such a one is how many of the devices before it are claimed. */
static inline int arbiter_is_claimed(const uint32_t *set, size_t set_len, size_t device) {
    for (size_t i = 0; i < set_len; i++) {
        if (arbiter_word_kind(set[i]) == ARBITER_CLAIM && arbiter_action_device(set[i]) == device) return 1;
    }
    return 0;
}

/* The index of the task's first action; its actions stand one after the other. set_len if there is no such task. */
static inline size_t arbiter_actions_at(const uint32_t *set, size_t set_len, size_t task) {
    for (size_t i = 0; i < set_len; i++) {
        if (arbiter_word_kind(set[i]) == ARBITER_TASK && task-- == 0) return i + 1;
    }
    return set_len;
}

/* How many actions the task has, which is its last position; 0 if there is no such task. */
static inline size_t arbiter_action_count(const uint32_t *set, size_t set_len, size_t task) {
    size_t first = arbiter_actions_at(set, set_len, task);
    size_t end = first;
    while (end < set_len && arbiter_is_action(set[end])) end++;
    return end - first;
}

/* The word of the task's action number p, counted from 1: the one that takes it from position p - 1 to p. 0, which is no word, if it has none. */
static inline uint32_t arbiter_action(const uint32_t *set, size_t set_len, size_t task, size_t p) {
    if (p == 0 || p > arbiter_action_count(set, set_len, task)) return 0;
    return set[arbiter_actions_at(set, set_len, task) + p - 1];
}

/* How many actions the task has done in the record's state: its position; 0 for a number that is no task's. */
static inline size_t arbiter_done(const arbiter_record *record, size_t task) {
    return task < ARBITER_MAX_TASKS ? record->positions[task] : 0;
}

/* How many grants the present window has had: the counts added up. A bid's window must be more than that. */
static inline uint32_t arbiter_window_grants(const arbiter_record *record) {
    uint32_t grants = 0;
    for (size_t task = 0; task < ARBITER_MAX_TASKS; task++) grants += record->counts[task];
    return grants;
}

/* What the task was granted last: right after GRANTED, the CLAIM or RELEASE to make now; arbiter_action_device and arbiter_claim_units say of what. 0 at
 * the task's start. */
static inline uint32_t arbiter_last_action(const arbiter_record *record, const uint32_t *set, size_t set_len, size_t task) {
    return arbiter_action(set, set_len, task, arbiter_done(record, task));
}

/* What the task's next bid asks for: a CLAIM or RELEASE. 0 if the task is finished. */
static inline uint32_t arbiter_next_action(const arbiter_record *record, const uint32_t *set, size_t set_len, size_t task) {
    return arbiter_action(set, set_len, task, arbiter_done(record, task) + 1);
}

/* How many units of the device the task holds in the record's state: those of its last claim, 0 if it has released them since or never claimed any. */
static inline uint32_t arbiter_units(const arbiter_record *record, const uint32_t *set, size_t set_len, size_t task, size_t device) {
    uint32_t units = 0;
    size_t first = arbiter_actions_at(set, set_len, task);
    size_t actions = arbiter_action_count(set, set_len, task);
    for (size_t i = 0; i < actions && i < arbiter_done(record, task); i++) {
        uint32_t action = set[first + i];
        if (arbiter_action_device(action) == device) units = arbiter_claim_units(action);
    }
    return units;
}

/* 1 if the task holds the device in the record's state, 0 if not. */
static inline int arbiter_holds(const arbiter_record *record, const uint32_t *set, size_t set_len, size_t task, size_t device) {
    return arbiter_units(record, set, set_len, task, device) > 0;
}

/* How many tasks hold the device in the record's state. */
static inline size_t arbiter_holder_count(const arbiter_record *record, const uint32_t *set, size_t set_len, size_t device) {
    size_t holders = 0;
    for (size_t task = 0; task < ARBITER_MAX_TASKS; task++) {
        if (arbiter_holds(record, set, set_len, task, device)) holders++;
    }
    return holders;
}

/* How many units of the device are held in the record's state, by all tasks together. In service never more than its capacity. */
static inline uint32_t arbiter_units_in_use(const arbiter_record *record, const uint32_t *set, size_t set_len, size_t device) {
    uint32_t units = 0;
    for (size_t task = 0; task < ARBITER_MAX_TASKS; task++) units += arbiter_units(record, set, set_len, task, device);
    return units;
}

/* The rank of the state with these positions. */
static inline uint64_t arbiter_rank(const uint32_t *set, size_t set_len, const uint8_t positions[ARBITER_MAX_TASKS]) {
    uint64_t rank = 0;
    size_t tasks = arbiter_task_count(set, set_len);
    for (size_t task = 0; task < tasks; task++) rank = rank * (arbiter_action_count(set, set_len, task) + 1) + positions[task];
    return rank;
}

/* Writes the positions of the state of this rank, 0 for absent tasks. 1; or 0 if the set has no such state, whose positions then mean nothing. */
static inline int arbiter_positions(const uint32_t *set, size_t set_len, uint64_t rank, uint8_t positions[ARBITER_MAX_TASKS]) {
    size_t tasks = arbiter_task_count(set, set_len);
    for (size_t task = tasks; task < ARBITER_MAX_TASKS; task++) positions[task] = 0;
    for (size_t task = tasks; task-- > 0;) {
        uint64_t choices = arbiter_action_count(set, set_len, task) + 1;
        positions[task] = (rank % choices) & 0xFF;
        rank /= choices;
    }
    return rank == 0;
}

/* The record's state, to question a plan with. */
static inline arbiter_state arbiter_state_of(const arbiter_record *record) {
    arbiter_state state;
    for (size_t task = 0; task < ARBITER_MAX_TASKS; task++) state.positions[task] = record->positions[task];
    return state;
}

/* A box of a plan: the states in which every task's position is between its low and its high, both included. */
typedef struct arbiter_box {
    uint32_t kind;   /* ARBITER_FORBIDDEN_BOX or ARBITER_UNSAFE_BOX */
    uint32_t device; /* a forbidden box's device; 0 for an unsafe one */
    size_t tasks;    /* how many sides it has: one for each task of the set, fewer only if the plan is damaged */
    uint8_t low[ARBITER_MAX_TASKS];
    uint8_t high[ARBITER_MAX_TASKS];
} arbiter_box;

/* Writes the box that starts at plan[*at], moves *at behind it and gives 1; gives 0 and changes nothing where no box starts, so after the last.
 * For all boxes: size_t at = 0; while (arbiter_next_box(plan, plan_len, &at, &box)) .. Then plan[at] is the first DEAD_STATE; if there is none, the
 * first UNREACHED_STATE, or END.
 * For the box that arbiter_locate answers: size_t at = answer.value. */
static inline int arbiter_next_box(const uint32_t *plan, size_t plan_len, size_t *at, arbiter_box *box) {
    if (*at >= plan_len) return 0;
    uint32_t kind = arbiter_word_kind(plan[*at]);
    if (kind != ARBITER_FORBIDDEN_BOX && kind != ARBITER_UNSAFE_BOX) return 0;
    box->kind = kind;
    box->device = arbiter_word_field(plan[*at]);
    box->tasks = 0;
    for (*at += 1; *at < plan_len && box->tasks < ARBITER_MAX_TASKS; *at += 1) {
        uint32_t side = plan[*at];
        if (arbiter_word_kind(side) != ARBITER_SIDE || arbiter_word_field(side) >> 16 != box->tasks) break;
        box->low[box->tasks] = (side >> 8) & 0xFF;
        box->high[box->tasks] = side & 0xFF;
        box->tasks++;
    }
    for (size_t task = box->tasks; task < ARBITER_MAX_TASKS; task++) box->low[task] = box->high[task] = 0;
    return 1;
}

/* The name of an answer's kind, for a log. */
static inline const char *arbiter_kind_text(uint32_t kind) {
    switch (kind) {
    case ARBITER_REFUSED: return "refused";
    case ARBITER_ACCEPTED: return "accepted";
    case ARBITER_PLANNED: return "planned";
    case ARBITER_ROUTED: return "routed";
    case ARBITER_GRANTED: return "granted";
    case ARBITER_FINISHED: return "finished";
    case ARBITER_BUSY: return "busy";
    case ARBITER_HELD: return "held";
    case ARBITER_RESTARTED: return "restarted";
    case ARBITER_IN_FORBIDDEN_BOX: return "in forbidden box";
    case ARBITER_IN_UNSAFE_BOX: return "in unsafe box";
    case ARBITER_IN_NO_BOX: return "in no box";
    case ARBITER_CLEANED: return "cleaned";
    case ARBITER_SHARE_SPENT: return "share spent";
    case ARBITER_TRIED: return "tried";
    default: return "no answer has this kind";
    }
}

/* What a refusal means, as a sentence for the author of the set or the reader of a log. */
static inline const char *arbiter_refusal_text(uint32_t refusal) {
    switch (refusal) {
    case ARBITER_NO_WORDS: return "the set is empty";
    case ARBITER_TOO_MANY_WORDS: return "the set has over 4,096 words";
    case ARBITER_WORD_AFTER_END: return "a word follows END, which must be the last";
    case ARBITER_UNKNOWN_KIND: return "this word is no DEVICE, TASK, CLAIM, RELEASE or END: its kind isn't 1 to 5";
    case ARBITER_OUT_OF_ORDER: return "this word is out of order: devices come first, and a TASK before any CLAIM, RELEASE or END";
    case ARBITER_FIELD_NOT_ALLOWED: return "the field isn't allowed: a capacity is 1 to 8, TASK has 0, an action names a declared device, only a CLAIM has units, END counts the words before it";
    case ARBITER_TOO_MANY: return "this is one too many: a set has at most 16 devices and 8 tasks, a task at most 255 claims and releases";
    case ARBITER_CLAIM_OF_HELD: return "the task claims a device that it holds already";
    case ARBITER_RELEASE_OF_NOT_HELD: return "the task releases a device that it doesn't hold";
    case ARBITER_STILL_HELD: return "a task ends here while it still holds a device";
    case ARBITER_NO_END: return "END is missing: it must be the last word";
    case ARBITER_GRID_TOO_LARGE: return "the tasks have over 65,536 states together: fewer or shorter tasks are needed";
    case ARBITER_MAP_TOO_SHORT: return "the map slice is shorter than the set's number of states";
    case ARBITER_PLAN_TOO_SHORT: return "the plan has more words than its slice";
    case ARBITER_BYTES_NOT_WORDS: return "the number of bytes isn't a multiple of 4: the file was cut, or isn't a set";
    case ARBITER_BAD_RECORD: return "the record doesn't fit the set and its map: it was damaged, or is another set's, or no analysis wrote the map; or its counts reach the window";
    case ARBITER_NO_SUCH_TASK: return "the set has no task of this number";
    case ARBITER_BAD_MAP_BYTE: return "the map isn't the one made for this set: it was damaged, or is another set's";
    case ARBITER_NOT_AT_END: return "not every task is finished";
    case ARBITER_NO_ROUTE: return "no steps lead from this state to the end";
    case ARBITER_ROUTE_TOO_SHORT: return "the route has more steps than its slice has bytes";
    case ARBITER_BAD_TASK_COUNT: return "a plan is for 1 to 8 tasks";
    case ARBITER_OUTSIDE_LAYOUT: return "no plan for so many tasks goes on like this: it was cut or damaged, or is for another number of tasks";
    case ARBITER_UNCLAIMED_DEVICE: return "no task claims this device: mend the claim that should name it, or let 'clean < OLDFILE > NEWFILE' take such devices out";
    case ARBITER_CLEAN_TOO_SHORT: return "the cleaned set has more words than its slice";
    case ARBITER_BAD_SETTING: return "the share or the window is outside 1 to 255";
    case ARBITER_BAD_ORDER: return "the order of a trial is empty, names a task here that the set doesn't have, or goes on after 255 tasks";
    case ARBITER_TOO_MANY_UNITS: return "the task claims more units than the device has: claim fewer, or give the device a larger capacity";
    default: return "no refusal has this number";
    }
}

#endif
