/* setter FONT LETTERS CALL HOW N: one call of the setter's library on the numbers of FONT (tools/bench/font) and the first LETTERS letters of its word.

   CALL  compile; begin; index (fill_index); word (set_word); indexed (set_word_indexed, on the index of the table); step (steps on a fresh state to the end, the end among them);
         check (check_table); checked, checked_indexed (set_checked_word, set_checked_word_indexed); step_indexed (as step, by the index);
         chip_begin, chip_add, chip_end, chip_take (one command of the caption chip: on a fresh chip; the first letter; the end of a word of LETTERS letters; the first item taken);
         chip_add_last (the last letter of a word of LETTERS letters); chip_end_step, chip_take_step (the step of chip_end and of chip_take as one call of ligkern_step).
         font_plain, font_idle, font_waits (steps to the end over a word in which every letter has a kern pair with the next, without the left boundary: by ligkern_step; by
         ligkern_font_step with nothing asked for; and with a font asked for, which waits up to the last letter).
         short (every short word of 12 letters with its items, by next_word), short_word (set_word on the same words), short_40 (every short word of 40 letters, on no table).
   HOW   answer: writes the table, the ops, the loops and the items that the call leaves, and N is not looked at; count, time: see meter.h.

   What is lent: room for 512 pairs, or 4,096, or 65,792, whichever is enough first, for four ops a pair, 64 loops and three items a letter. */
#include "ligkern.h"
#include "meter.h"

struct list {
    int32_t *at;
    size_t n;
};

static struct list instructions, kerns, entries, pairs, ops, loops, items;
static int32_t boundary, left_entry, design;
static uint32_t *word, *work, said;
static size_t letters, pair_room;
static uint64_t counts[3], count, state[9], fresh[9], index_of[LIGKERN_INDEX], steps;
static int32_t item[7];
static uint64_t run[LIGKERN_FONT_RUN], fresh_run[LIGKERN_FONT_RUN];
static uint64_t chip[LIGKERN_CHIP], chip_before[LIGKERN_CHIP];
static uint8_t block[16];

static long next_number(char **at) {
    char *end;
    long n = strtol(*at, &end, 10);
    if (end == *at) die("a number is missing");
    *at = end;
    return n;
}

static struct list read_list(char **at, size_t each) {
    struct list l;
    l.n = (size_t)next_number(at) * each;
    l.at = room(l.n * sizeof *l.at);
    for (size_t i = 0; i < l.n; i++) l.at[i] = (int32_t)next_number(at);
    return l;
}

static void read_font(const char *path) {
    size_t length;
    char *at = read_whole(path, &length);
    if (*at++ != 'W' || next_number(&at) != 1 || next_number(&at) != -1) die("no request W with the left boundary and no override");
    struct list w = read_list(&at, 1);
    if (letters > w.n) die("the word is too short");
    word = room(letters * sizeof *word);
    for (size_t i = 0; i < letters; i++) word[i] = (uint32_t)w.at[i];
    design = (int32_t)next_number(&at);
    instructions = read_list(&at, 4);
    kerns = read_list(&at, 1);
    entries = read_list(&at, 2);
    boundary = (int32_t)next_number(&at);
    left_entry = (int32_t)next_number(&at);
}

static struct list list_of(size_t n) {
    struct list l = {room(n * sizeof *l.at), n};
    return l;
}

static void compile(void) {
    said = ligkern_compile(instructions.at, instructions.n, kerns.at, kerns.n, entries.at, entries.n, boundary, left_entry, design, 0, 0, pairs.at, pairs.n, ops.at, ops.n, loops.at, loops.n, work,
                           16 * pair_room, counts, 3);
}

static void begin(void) {
    said = ligkern_begin(pairs.at, 6 * counts[0], ops.at, 2 * counts[1], boundary, word, letters, false, -1, state, 9);
}

static void set_word(void) {
    said = ligkern_set_word(pairs.at, 6 * counts[0], ops.at, 2 * counts[1], boundary, word, letters, false, -1, items.at, items.n, &count, 1);
}

static void fill_index(void) {
    said = ligkern_fill_index(pairs.at, 6 * counts[0], index_of, LIGKERN_INDEX);
}

static void set_word_indexed(void) {
    said = ligkern_set_word_indexed(index_of, LIGKERN_INDEX, pairs.at, 6 * counts[0], ops.at, 2 * counts[1], boundary, word, letters, false, -1, items.at, items.n, &count, 1);
}

static void check_table(void) {
    said = ligkern_check_table(pairs.at, 6 * counts[0], ops.at, 2 * counts[1]);
}

static void set_checked_word(void) {
    said = ligkern_set_checked_word(pairs.at, 6 * counts[0], ops.at, 2 * counts[1], boundary, word, letters, false, -1, items.at, items.n, &count, 1);
}

static void set_checked_word_indexed(void) {
    said = ligkern_set_checked_word_indexed(index_of, LIGKERN_INDEX, pairs.at, 6 * counts[0], ops.at, 2 * counts[1], boundary, word, letters, false, -1, items.at, items.n, &count, 1);
}

static void step_indexed_to_end(void) {
    steps = 0;
    do {
        said = ligkern_step_indexed(index_of, LIGKERN_INDEX, pairs.at, 6 * counts[0], ops.at, 2 * counts[1], boundary, word, letters, false, -1, state, 9, item, 7);
        steps++;
    } while (said == 0 && item[0] == 1);
}

static void step_to_end(void) {
    steps = 0;
    do {
        said = ligkern_step(pairs.at, 6 * counts[0], ops.at, 2 * counts[1], boundary, word, letters, false, -1, state, 9, item, 7);
        steps++;
    } while (said == 0 && item[0] == 1);
}

/* A word of as many letters in which each has a kern pair with the next: its pair is a character and a kern, and its last is the right as it stands. The rights are taken in turn. */
static int is_kern_pair(uint64_t k) {
    const int32_t *p = pairs.at + 6 * k;
    return p[0] >= 0 && p[3] == 0 && p[5] == 2 && ops.at[2 * p[4]] == 0 && ops.at[2 * p[4] + 2] == 2;
}

/* The letters that a kern pair leads on from, over and over: a letter is left out once every letter that it has a kern pair with is left out. */
static void weave_word(void) {
    static uint8_t leads[256];
    memset(leads, 1, sizeof leads);
    for (int changed = 1; changed;) {
        uint8_t kept[256] = {0};
        for (uint64_t k = 0; k < counts[0]; k++) {
            if (is_kern_pair(k) && leads[pairs.at[6 * k + 1]]) kept[pairs.at[6 * k]] = 1;
        }
        changed = memcmp(kept, leads, sizeof kept) != 0;
        memcpy(leads, kept, sizeof kept);
    }
    uint32_t left = 0;
    while (left < 256 && !leads[left]) left++;
    if (left == 256) die("no word in which every letter has a kern pair");
    static uint64_t at[256];
    for (size_t i = 0; i < letters; i++) {
        word[i] = left;
        uint64_t k = at[left];
        do k = (k + 1) % counts[0];
        while (pairs.at[6 * k] != (int32_t)left || !is_kern_pair(k) || !leads[pairs.at[6 * k + 1]]);
        at[left] = k;
        left = (uint32_t)pairs.at[6 * k + 1];
    }
    said = ligkern_start_word(pairs.at, 6 * counts[0], ops.at, 2 * counts[1], boundary, 0, 0, 0, 0, 0, word, letters, true, -1, fresh_run, LIGKERN_FONT_RUN);
}

static void run_again(void) { memcpy(run, fresh_run, sizeof run); }

static void font_plain(void) {
    steps = 0;
    do {
        said = ligkern_step(pairs.at, 6 * counts[0], ops.at, 2 * counts[1], boundary, word, letters, true, -1, run, 9, item, 7);
        steps++;
    } while (said == 0 && item[0] == 1);
}

static void font_steps(void) {
    steps = 0;
    do {
        said = ligkern_font_step(pairs.at, 6 * counts[0], ops.at, 2 * counts[1], boundary, pairs.at, 6 * counts[0], ops.at, 2 * counts[1], boundary, word, letters, true, -1, run, LIGKERN_FONT_RUN, item,
                                 7);
        steps++;
    } while (said == 0 && item[0] == 1);
}

/* One command of the chip. */
static void command(uint8_t number, uint8_t letter) {
    block[0] = number;
    block[1] = letter;
    said = ligkern_chip(pairs.at, 6 * counts[0], ops.at, 2 * counts[1], boundary, block, sizeof block, chip, LIGKERN_CHIP);
}

static void chip_begin(void) { command(1, 0); }
static void chip_add(void) { command(2, (uint8_t)word[0]); }
static void chip_end(void) { command(3, 0); }
static void chip_take(void) { command(4, 0); }
static void chip_step(void) {
    said = ligkern_step(pairs.at, 6 * counts[0], ops.at, 2 * counts[1], boundary, word, letters, false, -1, chip + 9, 9, item, 7);
}
static void chip_again(void) { memcpy(chip, chip_before, sizeof chip); }

/* What is measured of the chip: the command, how many letters were added before it, and whether the word was ended. */
static const struct chip_call {
    const char *name;
    void (*call)(void);
    int begun, full, ended;
} chip_calls[] = {
    {"chip_begin", chip_begin, 0, 0, 0},  {"chip_add", chip_add, 1, 0, 0},        {"chip_add_last", chip_add, 1, 1, 0},      {"chip_end", chip_end, 1, 2, 0},
    {"chip_take", chip_take, 1, 2, 1},    {"chip_end_step", chip_step, 1, 2, 0}, {"chip_take_step", chip_step, 1, 2, 1},
};

/* Every short word of so many letters, from `a` on, by next_word; how many came. On no table where there are 40. */
static uint32_t next[4], next_after[4];
static uint64_t answered[3], listed;

static void list_words(uint64_t set, size_t pairs_n, size_t ops_n) {
    size_t length = 0;
    for (listed = 0;; listed++) {
        said = ligkern_next_word(0, set, 0, 0, pairs.at, pairs_n, ops.at, ops_n, boundary, next, length, next_after, 4, items.at, items.n, answered, 3);
        if (said || !answered[0]) return;
        memcpy(next, next_after, sizeof next);
        length = answered[1];
    }
}

static void short_words(void) { list_words(0xfffULL << 33, 6 * counts[0], 2 * counts[1]); }
static void short_40(void) { list_words(0xffffffffffULL << 24, 0, 0); }

/* The same words of 12 letters, each by set_word. */
static void short_set(void) {
    static const uint32_t first = 'a';
    for (int n = 1; n <= 4; n++) {
        uint32_t w[4] = {first, first, first, first};
        for (;;) {
            said = ligkern_set_word(pairs.at, 6 * counts[0], ops.at, 2 * counts[1], boundary, w, (size_t)n, false, -1, items.at, items.n, &count, 1);
            if (said) return;
            int i = n - 1;
            while (i >= 0 && w[i] == first + 11) w[i--] = first;
            if (i < 0) break;
            w[i]++;
        }
    }
}

/* The chip before the command that is measured. */
static void (*chip_call(const char *call))(void) {
    for (size_t k = 0; k < sizeof chip_calls / sizeof *chip_calls; k++) {
        if (strcmp(call, chip_calls[k].name)) continue;
        size_t added = chip_calls[k].full == 2 ? letters : chip_calls[k].full ? letters - 1 : 0;
        if (chip_calls[k].begun) chip_begin();
        for (size_t i = 0; i < added && i < 64; i++) command(2, (uint8_t)word[i]);
        if (chip_calls[k].ended) chip_end();
        if (said) die("a command of the chip was refused");
        memcpy(chip_before, chip, sizeof chip);
        return chip_calls[k].call;
    }
    die("no such call");
    return 0;
}

static void nothing(void) {}
static void start_again(void) { memcpy(state, fresh, sizeof state); }

/* The table, in the least room that is enough. */
static void make_table(void) {
    static const size_t rooms[] = {512, 4096, 65792};
    for (int i = 0; i < 3; i++) {
        pair_room = rooms[i];
        pairs = list_of(6 * pair_room);
        ops = list_of(8 * pair_room);
        loops = list_of(2 * 64);
        work = room(64 * pair_room);
        compile();
        if (said != 12 && said != 14) break;
    }
    if (said) die("compile refused");
}

static void put(const char *name, const int32_t *at, uint64_t n, int each) {
    printf("%s %llu\n", name, (unsigned long long)n);
    for (uint64_t i = 0; i < n; i++) {
        for (int k = 0; k < each; k++) printf("%d%c", at[i * (uint64_t)each + (uint64_t)k], k == each - 1 ? '\n' : ' ');
    }
}

/* The items of steps, as set_word would write them. */
static void collect_steps(int by_index) {
    for (count = 0;; count++) {
        said = by_index ? ligkern_step_indexed(index_of, LIGKERN_INDEX, pairs.at, 6 * counts[0], ops.at, 2 * counts[1], boundary, word, letters, false, -1, state, 9, item, 7)
                        : ligkern_step(pairs.at, 6 * counts[0], ops.at, 2 * counts[1], boundary, word, letters, false, -1, state, 9, item, 7);
        if (said || item[0] == 0) return;
        if (6 * count + 6 > items.n) die("the room for items is too small");
        memcpy(items.at + 6 * count, item + 1, 6 * sizeof *item);
    }
}

int main(int argc, char **argv) {
    if (argc < 5) die("usage: setter FONT LETTERS CALL HOW N");
    letters = (size_t)atol(argv[2]);
    read_font(argv[1]);
    make_table();
    items = list_of(6 * 3 * letters);
    begin();
    if (said) die("begin refused");
    memcpy(fresh, state, sizeof state);
    fill_index();
    if (said) die("fill_index refused");

    const char *call = argv[3], *how = argv[4];
    int stepped = !strcmp(call, "step");
    if (!strcmp(how, "answer")) {
        if (stepped || !strcmp(call, "step_indexed")) collect_steps(!stepped);
        else if (!strcmp(call, "indexed")) set_word_indexed();
        else if (!strcmp(call, "checked")) set_checked_word();
        else if (!strcmp(call, "checked_indexed")) set_checked_word_indexed();
        else set_word();
        put("pairs", pairs.at, counts[0], 6);
        put("ops", ops.at, counts[1], 2);
        put("loops", loops.at, counts[2], 2);
        put("items", items.at, count, 6);
    } else {
        long n = atol(argv[5]);
        if (!strcmp(call, "compile")) meter(how, n, nothing, compile);
        else if (!strcmp(call, "begin")) meter(how, n, nothing, begin);
        else if (!strcmp(call, "word")) meter(how, n, nothing, set_word);
        else if (!strcmp(call, "index")) meter(how, n, nothing, fill_index);
        else if (!strcmp(call, "indexed")) meter(how, n, nothing, set_word_indexed);
        else if (!strcmp(call, "check")) meter(how, n, nothing, check_table);
        else if (!strcmp(call, "checked")) meter(how, n, nothing, set_checked_word);
        else if (!strcmp(call, "checked_indexed")) meter(how, n, nothing, set_checked_word_indexed);
        else if (!strcmp(call, "step_indexed")) meter(how, n, start_again, step_indexed_to_end);
        else if (!strncmp(call, "font_", 5)) {
            weave_word();
            if (said) die("start_word refused");
            if (!strcmp(call, "font_waits")) said = ligkern_ask_font(1, pairs.at, 6 * counts[0], ops.at, 2 * counts[1], boundary, fresh_run, LIGKERN_FONT_RUN);
            meter(how, n, run_again, !strcmp(call, "font_plain") ? font_plain : font_steps);
        }
        else if (!strcmp(call, "short")) meter(how, n, nothing, short_words);
        else if (!strcmp(call, "short_word")) meter(how, n, nothing, short_set);
        else if (!strcmp(call, "short_40")) meter(how, n, nothing, short_40);
        else if (stepped) meter(how, n, start_again, step_to_end);
        else if (!strncmp(call, "chip_", 5)) {
            void (*measured_call)(void) = chip_call(call);
            meter(how, n, chip_again, measured_call);
        }
        else die("no such call");
    }
    if (said) die("refused");
    return 0;
}
