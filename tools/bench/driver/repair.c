/* repair FONT LETTERS CALL HOW N: one call of the setter's library on a damaged font (tools/bench/font); LETTERS is not looked at.

   CALL  ask: ask_repair; commit: commit_repair, with the warnings that asking told.
   HOW   answer: writes the warnings and the repaired instructions; count, time: see meter.h.

   What is lent has room for the most that there can be. */
#include "ligkern.h"
#include "meter.h"

enum { MOST = 32767, WARNINGS = 4 * (1 + 256 + 4 * MOST + LIGKERN_MOST_PAIRS) };

static int32_t instructions[4 * MOST], kerns[MOST], entries[2 * 256], boundary, left_entry, replacement, fixed[4 * MOST], left;
static int32_t warnings[WARNINGS], found[WARNINGS];
static uint32_t work[16 * LIGKERN_MOST_PAIRS], said;
static uint64_t existing[4], count;
static uint8_t passthrough[MOST], through[MOST];
static size_t steps, kern_count, entry_count;

static long long next_number(char **at) {
    char *end;
    unsigned long long n = strtoull(*at, &end, 10);
    if (end == *at) die("a number is missing");
    *at = end;
    return (long long)n;
}

static size_t read_list(char **at, int32_t *list, size_t each, size_t most) {
    size_t n = (size_t)next_number(at);
    if (n > most) die("a list is too long");
    for (size_t i = 0; i < each * n; i++) list[i] = (int32_t)next_number(at);
    return n;
}

static void read_font(const char *path) {
    size_t length;
    char *at = read_whole(path, &length);
    steps = read_list(&at, instructions, 4, MOST);
    kern_count = read_list(&at, kerns, 1, MOST);
    entry_count = read_list(&at, entries, 2, 256);
    boundary = (int32_t)next_number(&at);
    left_entry = (int32_t)next_number(&at);
    replacement = (int32_t)next_number(&at);
    for (int i = 0; i < 4; i++) existing[i] = (uint64_t)next_number(&at);
}

static void ask(void) {
    said = ligkern_ask_repair(instructions, 4 * steps, kerns, kern_count, entries, 2 * entry_count, boundary, left_entry, replacement, existing[0], existing[1], existing[2], existing[3], passthrough,
                              steps, warnings, WARNINGS, work, 16 * LIGKERN_MOST_PAIRS, &count, 1);
}

static void commit(void) {
    said = ligkern_commit_repair(warnings, 4 * count, instructions, 4 * steps, kerns, kern_count, entries, 2 * entry_count, boundary, left_entry, replacement, existing[0], existing[1], existing[2],
                                 existing[3], passthrough, steps, fixed, 4 * MOST, through, MOST, found, 4 * count, work, 16 * LIGKERN_MOST_PAIRS, &left, 1);
}

static void nothing(void) {}

static void put(const int32_t *list, uint64_t n) {
    for (uint64_t i = 0; i < n; i++) printf("%d%c", list[i], i % 4 == 3 ? '\n' : ' ');
}

int main(int argc, char **argv) {
    if (argc < 5) die("usage: repair FONT LETTERS CALL HOW N");
    read_font(argv[1]);
    ask();
    if (said) die("asking is refused");
    if (!strcmp(argv[4], "answer")) {
        commit();
        put(warnings, 4 * count);
        put(fixed, 4 * steps);
    } else if (!strcmp(argv[3], "ask")) {
        meter(argv[4], atol(argv[5]), nothing, ask);
    } else if (!strcmp(argv[3], "commit")) {
        meter(argv[4], atol(argv[5]), nothing, commit);
    } else {
        die("no such call");
    }
    if (said) die("refused");
    return 0;
}
