/* blame FONT LETTERS CALL HOW N: which instruction altered a word, on the numbers of FONT (tools/bench/font).

   CALL  blamed: the first LETTERS letters of its word; none: LETTERS letters 0, which have no rule, so that every removal is compiled.
   HOW   answer: writes the two values; once: writes them and the seconds of that one call; count, time: see meter.h.

   What is lent has room for 512 pairs and four ops a pair in each table. */
#include "ligkern.h"
#include "meter.h"

enum { PAIRS = 512 };

struct list {
    int32_t *at;
    size_t n;
};

static struct list instructions, kerns, entries;
static int32_t boundary, left_entry, design, pairs[6 * PAIRS], ops[8 * PAIRS], pairs_without[6 * PAIRS], ops_without[8 * PAIRS], *edited;
static uint32_t *word, work[16 * PAIRS], said;
static uint64_t values[2];
static size_t letters;

static long next_number(char **at) {
    char *end;
    long n = strtol(*at, &end, 10);
    if (end == *at) die("a number is missing");
    *at = end;
    return n;
}

static struct list read_list(char **at, size_t each) {
    struct list l;
    l.n = (size_t)next_number(at) * each;
    l.at = room(l.n * sizeof *l.at);
    for (size_t i = 0; i < l.n; i++) l.at[i] = (int32_t)next_number(at);
    return l;
}

static void read_font(const char *path, int of_word) {
    size_t length;
    char *at = read_whole(path, &length);
    if (*at++ != 'W' || next_number(&at) != 1 || next_number(&at) != -1) die("no request W with the left boundary and no override");
    struct list w = read_list(&at, 1);
    if (letters > w.n) die("the word is too short");
    word = room(letters * sizeof *word);
    for (size_t i = 0; i < letters; i++) word[i] = of_word ? (uint32_t)w.at[i] : 0;
    design = (int32_t)next_number(&at);
    instructions = read_list(&at, 4);
    kerns = read_list(&at, 1);
    entries = read_list(&at, 2);
    boundary = (int32_t)next_number(&at);
    left_entry = (int32_t)next_number(&at);
    edited = room(instructions.n * sizeof *edited);
}

static void blame(void) {
    said = ligkern_blamed_instruction(instructions.at, instructions.n, kerns.at, kerns.n, entries.at, entries.n, boundary, left_entry, design, 0, 0, word, letters, false, -1, pairs, 6 * PAIRS, ops,
                                      8 * PAIRS, pairs_without, 6 * PAIRS, ops_without, 8 * PAIRS, edited, instructions.n, work, 16 * PAIRS, values, 2);
}

static void nothing(void) {}

int main(int argc, char **argv) {
    if (argc < 5) die("usage: blame FONT LETTERS CALL HOW N");
    letters = (size_t)atol(argv[2]);
    read_font(argv[1], !strcmp(argv[3], "blamed"));
    int once = !strcmp(argv[4], "once");
    if (once || !strcmp(argv[4], "answer")) {
        long long t = now_ns(CLOCK_THREAD_CPUTIME_ID);
        blame();
        t = now_ns(CLOCK_THREAD_CPUTIME_ID) - t;
        printf("%llu %llu\n", (unsigned long long)values[0], (unsigned long long)values[1]);
        if (once) printf("%.2f s\n", (double)t / 1e9);
    } else {
        meter(argv[4], atol(argv[5]), nothing, blame);
    }
    if (said) die("refused");
    return 0;
}
