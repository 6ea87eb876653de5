/* locate PLANFILE TASKS P0 P1 ..: questions a stored plan, without its set: does a box hold the state in which task 0 has done P0 actions, task 1
 * P1, and so on? Give a position for each of the TASKS tasks, no more and no fewer, and - for a plan on standard input. The same program in Rust is
 * rust/examples/locate.rs; both print the same.
 *
 * The plan is text as the printer prints it, a word a line in eight hexadecimal digits, letters as capitals (a carriage return at a line's end,
 * and a last line that isn't ended, are let pass); or stored words, four bytes each, lowest first. A file in which every byte is a printable ASCII
 * character, a tab or a line's end is text. No plan in stored words is one: a word of kind 8, 9 or A has a byte over 7F; without any there is END
 * alone, which counts 0 words before it. So no plan is taken for one in the other form; stored words that look like text are turned away as text.
 *
 * Exit status: 0; 1 for a refusal, which is printed: that of the question, or one by the printer that the file has in the place of a plan; 2 with a
 * line on standard error if the arguments or the file's lines are wrong, the library isn't of the header's version, the file can't be read,
 * standard output not written, or memory is out. */
#include "arbiter.h"

#include <errno.h>
#include <stdbool.h>
#include <stdio.h>
#include <stdlib.h>
#include <string.h>

#define USAGE "usage: locate PLANFILE TASKS P0 P1 .., with - for a plan on standard input"
#define DIGITS 8                             /* of a word in text */
#define WORD_BYTES sizeof(uint32_t)          /* of a stored word */
#define MAX_BYTES ((size_t)64 * 1024 * 1024) /* far more than any plan of an analysis has, and an end for files that have none */

static void stop(const char *why) {
    fprintf(stderr, "locate: %s\n", why);
    exit(2);
}

/* Ends with this status, if all that was printed is written. */
static void end(int status) {
    if (fflush(stdout) != 0 || ferror(stdout)) stop("can't write standard output");
    exit(status);
}

/* --- The arguments --- */

/* The number in decimal digits that starts here, at most SIZE_MAX, and the place behind it; that is the start where no digit stands. */
static size_t digits(const char *text, const char **behind) {
    size_t number = 0;
    for (; *text >= '0' && *text <= '9'; text++) {
        size_t digit = (size_t)(*text - '0');
        number = number > (SIZE_MAX - digit) / 10 ? SIZE_MAX : number * 10 + digit;
    }
    *behind = text;
    return number;
}

/* Whether the text is a number and nothing else. */
static bool is_number(const char *text, size_t *number) {
    const char *behind;
    *number = digits(text, &behind);
    return behind != text && *behind == '\0';
}

static arbiter_state state_of(size_t tasks, int positions, char **position) {
    arbiter_state state = {{0}};
    if ((size_t)positions != tasks) {
        fprintf(stderr, "locate: a position is needed for each task: TASKS is %zu, and the positions are %d\n", tasks, positions);
        exit(2);
    }
    for (size_t task = 0; task < tasks; task++) {
        size_t number;
        if (!is_number(position[task], &number) || number > UINT8_MAX) {
            fprintf(stderr, "locate: P%zu isn't a position: a number from 0 to %d\n", task, UINT8_MAX);
            exit(2);
        }
        state.positions[task] = (uint8_t)number;
    }
    return state;
}

/* --- The plan --- */

/* A plan's words, and whether they stood in text: then the word with index i is line i + 1, else it starts at byte 4 * i. */
typedef struct {
    uint32_t *words;
    size_t len;
    bool in_text;
} stored;

static void *room(void *before, size_t bytes) {
    void *memory = realloc(before, bytes);
    if (memory == NULL) stop("out of memory");
    return memory;
}

static void stop_reading(void) {
    fprintf(stderr, "locate: can't read the plan file: %s\n", strerror(errno));
    exit(2);
}

/* The bytes of a file, or of standard input, and a 0 behind them; their number is stored in *len. */
static char *bytes_in(const char *path, size_t *len) {
    size_t size = 4096;
    char *bytes = NULL;
    FILE *file = strcmp(path, "-") == 0 ? stdin : fopen(path, "rb");
    if (file == NULL) stop_reading();
    for (*len = 0;; size *= 2) {
        bytes = room(bytes, size);
        *len += fread(bytes + *len, 1, size - *len, file);
        if (ferror(file)) stop_reading();
        if (*len > MAX_BYTES) stop("the plan file is longer than any plan: over 64 MiB");
        if (*len < size) break;
    }
    fclose(file);
    bytes[*len] = '\0';
    return bytes;
}

static bool is_text(const char *bytes, size_t len) {
    for (size_t i = 0; i < len; i++) {
        bool ends_line = bytes[i] == '\n' || bytes[i] == '\r';
        if (!ends_line && bytes[i] != '\t' && (bytes[i] < ' ' || bytes[i] > '~')) return false;
    }
    return true;
}

/* The value of a hexadecimal digit, letters as capitals; 16 for any other character. */
static uint32_t hexadecimal(char digit) {
    if (digit >= '0' && digit <= '9') return (uint32_t)(digit - '0');
    if (digit >= 'A' && digit <= 'F') return (uint32_t)(digit - 'A') + 10;
    return 16;
}

/* Whether this line, of so many characters, is a word. */
static bool is_word(const char *line, size_t len, uint32_t *word) {
    *word = 0;
    if (len > 0 && line[len - 1] == '\r') len--;
    if (len != DIGITS) return false;
    for (size_t i = 0; i < DIGITS; i++) {
        if (hexadecimal(line[i]) == 16) return false;
        *word = *word * 16 + hexadecimal(line[i]);
    }
    return true;
}

/* Whether the text is what the printer prints for a set that it refuses: 'refused N at P' alone, neither number over 32 bits. */
static bool is_refusal(const char *text, size_t *refusal, size_t *place) {
    static const char begin[] = "refused ", middle[] = " at ";
    if (strncmp(text, begin, strlen(begin)) != 0) return false;
    const char *number = text + strlen(begin), *behind;
    *refusal = digits(number, &behind);
    if (behind == number || strncmp(behind, middle, strlen(middle)) != 0) return false;
    number = behind + strlen(middle);
    *place = digits(number, &behind);
    return behind != number && behind[strspn(behind, "\r\n")] == '\0' && *refusal <= UINT32_MAX && *place <= UINT32_MAX;
}

/* A text that begins as the printer's refusal ends the program: there is no plan to question. */
static void end_at_refusal(const char *text) {
    size_t refusal, place;
    if (is_refusal(text, &refusal, &place)) {
        printf("the file has no plan, but the printer's refusal of a set\n");
        printf("refused %zu at %zu: %s\n", refusal, place, arbiter_refusal_text((uint32_t)refusal));
        end(1);
    }
    if (strncmp(text, "refused", strlen("refused")) == 0) stop("the plan file begins as the printer's refusal of a set does, but isn't 'refused N at P' alone");
}

/* One word a line. */
static void from_text(stored *plan, const char *text) {
    for (const char *line = text; *line != '\0';) {
        size_t len = strcspn(line, "\n");
        if (!is_word(line, len, &plan->words[plan->len])) {
            fprintf(stderr, "locate: line %zu of the plan file isn't a word: eight hexadecimal digits, letters as capitals\n", plan->len + 1);
            exit(2);
        }
        plan->len++;
        line += len + (line[len] == '\n');
    }
}

/* Four bytes a word, lowest first. */
static void from_bytes(stored *plan, const uint8_t *bytes, size_t len) {
    if (len % WORD_BYTES != 0) {
        fprintf(stderr, "locate: the plan file is neither text nor stored words, four bytes each: it has %zu bytes\n", len);
        exit(2);
    }
    for (plan->len = 0; plan->len < len / WORD_BYTES; plan->len++) {
        const uint8_t *word = bytes + WORD_BYTES * plan->len;
        plan->words[plan->len] = (uint32_t)word[0] | (uint32_t)word[1] << 8 | (uint32_t)word[2] << 16 | (uint32_t)word[3] << 24;
    }
}

static stored plan_in(const char *path) {
    size_t len;
    char *bytes = bytes_in(path, &len);
    /* A word has at least four bytes in either form. One more than they can be, so that there is always room to lend. */
    stored plan = {room(NULL, (len / WORD_BYTES + 1) * sizeof *plan.words), 0, is_text(bytes, len)};
    if (plan.in_text) {
        end_at_refusal(bytes);
        from_text(&plan, bytes);
    } else {
        from_bytes(&plan, (const uint8_t *)bytes, len);
    }
    free(bytes);
    return plan;
}

/* --- The answer --- */

/* Where a word stands, for people. */
static void tell_place(stored plan, size_t index) {
    if (plan.in_text) printf("word %zu (line %zu)", index, index + 1);
    else printf("word %zu (byte %zu)", index, WORD_BYTES * index);
}

static void tell_box(stored plan, size_t index, size_t tasks, arbiter_state state) {
    arbiter_box box;
    size_t at = index;
    if (!arbiter_next_box(plan.words, plan.len, &at, &box) || box.tasks < tasks) stop("no such box: another libarbiter.a was linked");
    bool forbidden = box.kind == ARBITER_FORBIDDEN_BOX;
    size_t number = arbiter_count(plan.words, index, box.kind) + 1, all = arbiter_count(plan.words, plan.len, box.kind);
    printf("in %s box %zu of %zu, which starts at ", forbidden ? "forbidden" : "unsafe", number, all);
    tell_place(plan, index);
    if (forbidden) printf(": device %u would have more units held than it has\n", (unsigned)box.device);
    else printf(": the tasks can no longer all finish\n");
    for (size_t task = 0; task < tasks; task++) {
        printf("task %zu: position %u, the box has %u to %u\n", task, (unsigned)state.positions[task], (unsigned)box.low[task], (unsigned)box.high[task]);
    }
}

static void tell_refusal(stored plan, uint32_t refusal, size_t place) {
    printf("refused %u at %zu: %s\n", (unsigned)refusal, place, arbiter_refusal_text(refusal));
    if (refusal != ARBITER_OUTSIDE_LAYOUT) return;
    if (place < plan.len) {
        tell_place(plan, place);
        printf(" is %08lX\n", (unsigned long)plan.words[place]);
    } else {
        printf("it ends after %zu word%s, without END\n", plan.len, plan.len == 1 ? "" : "s");
    }
}

int main(int arguments, char **argument) {
    size_t tasks;
    if (arguments == 2 && strcmp(argument[1], "--help") == 0) {
        printf("%s\n", USAGE);
        end(0);
    }
    if (arguments < 3) stop(USAGE);
    if (arbiter_version() != ARBITER_VERSION) stop("libarbiter.a isn't of the version of arbiter.h");
    if (!is_number(argument[2], &tasks)) stop("TASKS isn't a number: how many tasks the plan is for, 1 to 8");

    /* Any other task count is for the library to refuse, whatever the positions. */
    arbiter_state state = {{0}};
    if (1 <= tasks && tasks <= ARBITER_MAX_TASKS) state = state_of(tasks, arguments - 3, argument + 3);
    stored plan = plan_in(argument[1]);

    arbiter_answer answer = arbiter_locate(state, plan.words, plan.len, tasks);
    switch (answer.kind) {
    case ARBITER_IN_FORBIDDEN_BOX:
    case ARBITER_IN_UNSAFE_BOX: tell_box(plan, (size_t)answer.value, tasks, state); break;
    case ARBITER_IN_NO_BOX: printf("in no box: by this plan the tasks can still all finish, if none is past its last action\n"); break;
    case ARBITER_REFUSED: tell_refusal(plan, answer.refusal, (size_t)answer.value); break;
    default: stop("a question has no such answer: another libarbiter.a was linked");
    }
    free(plan.words);
    end(answer.kind == ARBITER_REFUSED ? 1 : 0);
}
