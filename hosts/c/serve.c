/* serve SETFILE [SHARE WINDOW]: reads a set (four bytes a word, lowest first), analyses it, serves rounds of bids until every task is finished, starts
 * anew and prints the route from the start. Each bid brings SHARE and WINDOW; without them both are 255, and no share is ever spent. At last it tries
 * these settings and others for a turn in which task 0 bids twice as often. The same program in Rust is rust/examples/serve.rs, in Python
 * python/serve.py; all print the same.
 *
 * Exit status: 0; 1 if a call was refused, with the refusal as the last line; 2 if the arguments are wrong, the library isn't of the header's version,
 * the file can't be read, standard output not written, or memory is out. */
#include "arbiter.h"

#include <stdbool.h>
#include <stdio.h>
#include <stdlib.h>
#include <string.h>

static void stop(const char *why) {
    fprintf(stderr, "serve: %s\n", why);
    exit(2);
}

/* Ends with this status, if all that was printed is written. */
static void end(int status) {
    if (fflush(stdout) != 0 || ferror(stdout)) stop("can't write standard output");
    exit(status);
}

static void refused(uint32_t refusal, uint64_t place) {
    printf("refused %u at %llu: %s\n", (unsigned)refusal, (unsigned long long)place, arbiter_refusal_text(refusal));
    end(1);
}

/* The answer's value, if the call wasn't refused. */
static size_t value_of(arbiter_answer answer) {
    if (answer.kind == ARBITER_REFUSED) refused(answer.refusal, answer.value);
    return (size_t)answer.value;
}

/* The number in an argument of decimal digits, at most UINT32_MAX: what isn't 1 to 255 is for the library to refuse, and must not be cut to what is. */
static uint32_t number_in(const char *argument, const char *complaint) {
    uint32_t number = 0;
    const char *at = argument;
    for (; *at >= '0' && *at <= '9'; at++) {
        uint32_t digit = (uint32_t)(*at - '0');
        number = number > (UINT32_MAX - digit) / 10 ? UINT32_MAX : number * 10 + digit;
    }
    if (at == argument || *at != '\0') stop(complaint);
    return number;
}

static void *room(size_t count, size_t size) {
    void *memory = calloc(count, size);
    if (memory == NULL) stop("out of memory");
    return memory;
}

/* The words in a set file; their number is the answer. Its own refusals are 2 and 15, before any of the library's. */
static size_t words_in(const char *path, uint32_t set[ARBITER_MAX_WORDS]) {
    static uint8_t bytes[4 * ARBITER_MAX_WORDS + 1]; /* room for one byte too many, which shows that the file is too long */
    FILE *file = fopen(path, "rb");
    if (file == NULL) stop("can't open the set file");
    size_t length = fread(bytes, 1, sizeof bytes, file);
    if (ferror(file)) stop("can't read the set file");
    fclose(file);

    if (length > 4 * ARBITER_MAX_WORDS) refused(ARBITER_TOO_MANY_WORDS, ARBITER_MAX_WORDS);
    if (length % 4 != 0) refused(ARBITER_BYTES_NOT_WORDS, length / 4);
    for (size_t i = 0; i < length / 4; i++) {
        const uint8_t *word = bytes + 4 * i;
        set[i] = (uint32_t)word[0] | (uint32_t)word[1] << 8 | (uint32_t)word[2] << 16 | (uint32_t)word[3] << 24;
    }
    return length / 4;
}

/* The room for a map. A byte of 0 is an open state, so it is filled with a byte that no map has: were it used before an analysis wrote it,
 * the first bid would be refused with 16; on zeros everything would be granted. */
static uint8_t *map_room(size_t len) {
    uint8_t *map = room(len, 1);
    memset(map, ARBITER_NOT_ANALYSED, len);
    return map;
}

/* The plan, in a slice that is doubled while it is too short; what the last analysis answered is stored in *analysis, with the plan's length. It
 * starts short, so that even small sets show the doubling; 1,024 words would do for most. */
static uint32_t *plan_of(const uint32_t *set, size_t set_len, uint8_t *map, size_t map_len, arbiter_analysis *analysis) {
    for (size_t size = 8;; size *= 2) {
        uint32_t *plan = room(size, sizeof *plan);
        *analysis = arbiter_analyse(set, set_len, map, map_len, plan, size);
        if (analysis->answer.refusal != ARBITER_PLAN_TOO_SHORT) return plan;
        free(plan);
    }
}

/* What every bid of the service is made with. */
typedef struct {
    arbiter_record record;
    const uint32_t *set;
    size_t set_len;
    const uint8_t *map;
    size_t map_len;
    uint32_t share, window;
} service;

/* One bid, printed; whether the task was finished already. */
static bool finished(service *it, size_t round, size_t task) {
    arbiter_answer answer = arbiter_bid(&it->record, it->set, it->set_len, it->map, it->map_len, task, it->share, it->window);
    size_t value = value_of(answer);
    printf("round %zu, task %zu: ", round, task);
    switch (answer.kind) {
    case ARBITER_GRANTED: printf("granted\n"); break;
    case ARBITER_FINISHED: printf("finished\n"); break;
    case ARBITER_BUSY: printf("waits for device %zu\n", value); break;
    case ARBITER_HELD: printf("held back from unsafe state %zu\n", value); break;
    case ARBITER_SHARE_SPENT: printf("waits, since its share is spent\n"); break;
    default: stop("a bid has no such answer: another libarbiter.a was linked");
    }
    return answer.kind == ARBITER_FINISHED;
}

/* Rounds of bids until every task is finished. */
static void serve_rounds(service *it, size_t tasks) {
    size_t done = 0;
    for (size_t round = 1; done < tasks; round++) {
        done = 0;
        for (size_t task = 0; task < tasks; task++) {
            if (finished(it, round, task)) done++;
        }
    }
}

/* The route from the record's state to the end. */
static void print_route(const service *it) {
    uint8_t *route = room(it->set_len, 1);
    size_t steps = value_of(arbiter_route(it->record, it->set, it->set_len, it->map, it->map_len, route, it->set_len));
    printf("route:");
    for (size_t i = 0; i < steps; i++) printf(" %u", (unsigned)route[i]);
    printf("\n");
    free(route);
}

/* A trial of these settings: task 0, then every task in turn, for as many rounds as there may be, since it stops once every task is finished. */
static void print_trial(const service *it, size_t tasks, uint32_t share, uint32_t window) {
    uint8_t order[1 + ARBITER_MAX_TASKS] = {0};
    for (size_t task = 0; task < tasks; task++) order[1 + task] = (uint8_t)task;
    arbiter_trial_result trial = arbiter_trial(it->set, it->set_len, it->map, it->map_len, order, 1 + tasks, UINT16_MAX, share, window);
    size_t bids = value_of(trial.answer);
    printf("trial with share %u, window %u: %zu bids, %llu of them answered finished\n", (unsigned)share, (unsigned)window, bids,
           (unsigned long long)trial.finished);
    for (size_t task = 0; task < tasks; task++) {
        arbiter_tally row = trial.rows[task];
        printf("trial, task %zu: %u granted, %u busy, %u held, %u share spent\n", task, (unsigned)row.granted, (unsigned)row.busy, (unsigned)row.held,
               (unsigned)row.share_spent);
    }
}

int main(int arguments, char **argument) {
    if (arguments != 2 && arguments != 4) stop("usage: serve SETFILE [SHARE WINDOW]");
    uint32_t share = arguments == 4 ? number_in(argument[2], "SHARE isn't a number: 1 to 255") : ARBITER_MAX_SETTING;
    uint32_t window = arguments == 4 ? number_in(argument[3], "WINDOW isn't a number: 1 to 255") : ARBITER_MAX_SETTING;
    if (arbiter_version() != ARBITER_VERSION) stop("libarbiter.a isn't of the version of arbiter.h");

    static uint32_t set[ARBITER_MAX_WORDS];
    size_t set_len = words_in(argument[1], set);
    size_t map_len = value_of(arbiter_read(set, set_len));
    size_t tasks = arbiter_task_count(set, set_len);
    printf("words: %zu, devices: %zu, tasks: %zu, states: %zu\n", set_len, arbiter_device_count(set, set_len), tasks, map_len);

    uint8_t *map = map_room(map_len);
    arbiter_analysis analysis;
    uint32_t *plan = plan_of(set, set_len, map, map_len, &analysis);
    size_t plan_len = value_of(analysis.answer);
    printf("forbidden boxes: %zu, unsafe boxes: %zu, dead states: %zu reached, %zu not\n", arbiter_count(plan, plan_len, ARBITER_FORBIDDEN_BOX),
           arbiter_count(plan, plan_len, ARBITER_UNSAFE_BOX), arbiter_count(plan, plan_len, ARBITER_DEAD_STATE),
           arbiter_count(plan, plan_len, ARBITER_UNREACHED_STATE));
    printf("unsafe: %u of every 1000 permitted states, remainder %u\n", (unsigned)analysis.quotient, (unsigned)analysis.remainder);

    printf("share: %u, window: %u\n", (unsigned)share, (unsigned)window);
    service it = {arbiter_fresh(), set, set_len, map, map_len, share, window};
    serve_rounds(&it, tasks);
    printf("grants: %u\n", (unsigned)it.record.grants);

    value_of(arbiter_again(&it.record, set, set_len));
    printf("again: every task is at its start\n");
    print_route(&it);

    print_trial(&it, tasks, share, window);
    print_trial(&it, tasks, 2, 2 * (uint32_t)tasks); /* a claim and a release each, and room for them in the window */

    free(plan);
    free(map);
    end(0);
}
