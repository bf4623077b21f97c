/* driver: makes every call of c/ligkern.h and c/ligcols.h on a painted stack, and writes a line for each: its name, and the most bytes that it took.

   A call is made on random fonts and words, on the largest that there are, and once for each number with which the headers say that it is refused. Ends with 1
   where a call answers another number than is due, or some number is never met: then the inputs are not what they are meant to be. */
#include "ligcols.h"
#include "ligkern.h"
#include "paint.h"

#include <stdarg.h>

enum { INSTRUCTIONS = 32767, KERNS = 32767, LETTERS = 65535, PAIRS = LIGKERN_MOST_PAIRS, OPS = 4 * PAIRS, FONTS = 300 };

/* One place more than may be lent, where a call is to refuse too much. */
static int32_t instructions[4 * (INSTRUCTIONS + 1)], kerns[KERNS + 1], entries[2 * 256], pairs[6 * PAIRS], ops[2 * OPS], loops[2 * PAIRS];
static int32_t items[6 * 4 * LETTERS], item[7], out[4 * (INSTRUCTIONS + 257)], entries_out[2 * 256], left[1], boundary, left_entry, design_size, override;
static int32_t warnings[4 * (1 + 256 + 4 * INSTRUCTIONS + PAIRS)], found[4 * (1 + 256 + 4 * INSTRUCTIONS + PAIRS)], entry, asked_left, asked_right, replacement;
static uint32_t word[LETTERS + 1], work[16 * PAIRS], chain[INSTRUCTIONS], number;
static uint64_t counts[3], count[1], values[3], state[9], state_before[9], numbers[LIGKERN_INDEX], existing[4], run[LIGKERN_FONT_RUN], run_before[LIGKERN_FONT_RUN];
static uint8_t passthrough[INSTRUCTIONS], through[INSTRUCTIONS], text[LIGCOLS_TEXT + 2], reply[LIGCOLS_REPLY];
static uint8_t file[4 * LIGKERN_MOST_WORDS], new_file[4 * LIGKERN_MOST_WORDS];
static int32_t edges[2], size, magnification, scaled[1];
static bool without_left;

/* How many elements of each are lent. */
static struct {
    size_t instructions, kerns, entries, passthrough, text, file;          /* read */
    size_t pairs, ops, word, numbers;                                      /* read: a table, a word, an index */
    size_t pair_room, op_room, loops, work, counts, items, count, values;  /* written */
    size_t state, run, item, out, entries_out, through, chain, warnings, reply; /* written */
    size_t edges, new_file, scaled, handed, found, left;                   /* written, but for what is handed over */
} n;

/* A function that calls `callee` with the arguments of a call, and puts its number into `number`. */
#define CALL(name, ...)                                                                                                                                   \
    static __attribute__((noinline)) void call_##name(void) { number = (uint32_t)((__typeof__(&name))callee)(__VA_ARGS__); }
#define PROGRAM instructions, n.instructions
#define TABLE pairs, n.pairs, ops, n.ops
#define CAPTION TABLE, boundary, word, n.word, without_left, override
#define VALUES values, n.values

CALL(ligkern_compile, PROGRAM, kerns, n.kerns, entries, n.entries, boundary, left_entry, design_size, size, magnification, pairs, n.pair_room, ops,
     n.op_room, loops, n.loops, work, n.work, counts, n.counts)
CALL(ligkern_to_scaled, kerns[0], design_size, size, magnification, scaled, n.scaled)
CALL(ligkern_set_word, CAPTION, items, n.items, count, n.count)
CALL(ligkern_check_table, TABLE)
CALL(ligkern_set_checked_word, CAPTION, items, n.items, count, n.count)
CALL(ligkern_fill_index, pairs, n.pairs, numbers, n.numbers)
CALL(ligkern_set_word_indexed, numbers, n.numbers, CAPTION, items, n.items, count, n.count)
CALL(ligkern_set_checked_word_indexed, numbers, n.numbers, CAPTION, items, n.items, count, n.count)
CALL(ligkern_begin, CAPTION, state, n.state)
CALL(ligkern_step, CAPTION, state, n.state, item, n.item)
CALL(ligkern_step_indexed, numbers, n.numbers, CAPTION, state, n.state, item, n.item)
CALL(ligkern_ask_font, 1, TABLE, boundary, run, n.run)
CALL(ligkern_start_word, TABLE, boundary, TABLE, boundary, word, n.word, without_left, override, run, n.run)
CALL(ligkern_font_step, TABLE, boundary, TABLE, boundary, word, n.word, without_left, override, run, n.run, item, n.item)
CALL(ligkern_has_replacement, pairs, n.pairs, boundary, asked_left, asked_right, VALUES)
CALL(ligkern_all_pairs_with_replacements, pairs, n.pairs, out, n.out, VALUES)
CALL(ligkern_table_is_seven_bit_safe, TABLE, VALUES)
CALL(ligkern_program_is_seven_bit_safe, PROGRAM, entries, n.entries, VALUES)
CALL(ligkern_instructions_for_entrypoint, PROGRAM, entry, chain, n.chain, VALUES)
CALL(ligkern_unpack_entrypoint, PROGRAM, entry, passthrough, n.passthrough, through, n.through, VALUES)
CALL(ligkern_reachable_iter, PROGRAM, entries, n.entries, left_entry, passthrough, n.passthrough, out, n.out, VALUES)
CALL(ligkern_pack_entrypoints, PROGRAM, entries, n.entries, boundary, left_entry, out, n.out, entries_out, n.entries_out, VALUES)
CALL(ligkern_pack_kerns, PROGRAM, kerns, n.kerns, out, n.out, VALUES)
CALL(ligkern_unpack_kerns, PROGRAM, out, n.out, loops, n.loops, VALUES)
CALL(ligkern_ask_repair, PROGRAM, kerns, n.kerns, entries, n.entries, boundary, left_entry, replacement, existing[0], existing[1], existing[2], existing[3],
     passthrough, n.passthrough, warnings, n.warnings, work, n.work, VALUES)
CALL(ligkern_commit_repair, warnings, n.handed, PROGRAM, kerns, n.kerns, entries, n.entries, boundary, left_entry, replacement, existing[0], existing[1],
     existing[2], existing[3], passthrough, n.passthrough, out, n.out, through, n.through, found, n.found, work, n.work, left, n.left)
CALL(ligkern_deserialize, file, n.file, out, n.out, loops, n.loops, entries_out, n.entries_out, edges, n.edges, counts, n.counts)
CALL(ligkern_replace_lig_kern_program, file, n.file, PROGRAM, kerns, n.kerns, entries, n.entries, boundary, left_entry, new_file, n.new_file, VALUES)
CALL(ligcols, text, n.text, reply, n.reply)
CALL(ligcols_convert, text, n.text, reply, n.reply)

enum call {
    COMPILE, SCALE, SET, CHECK, CHECKED, FILL, INDEXED, CHECKED_INDEXED,             /* captions */
    BEGIN, STEP, STEP_INDEXED, ASK_FONT, START_WORD, FONT_STEP,                      /* .. step by step */
    HAS, LISTED, TABLE_SAFE,                                                         /* questions about a table */
    PROGRAM_SAFE, CHAIN, UNPACK, REACH, PACK, PACK_KERNS, UNPACK_KERNS, ASK, COMMIT, /* programs */
    READ_FILE, WRITE_FILE, TEXT, CONVERT                                             /* font files; a text */
};

/* Each with the numbers of its refusals, which are all to be met. */
static struct {
    const char *name;
    void (*from)(void), (*to)(void);
    uint8_t refusals[12];
    uint32_t met; /* the numbers that it has answered, as bits */
    size_t most;
} calls[] = {
#define ROW(place, name, ...) [place] = {#name, call_##name, (void (*)(void))name, {__VA_ARGS__}, 0, 0}
    ROW(COMPILE, ligkern_compile, 1, 2, 3, 4, 5, 12, 13, 14, 15, 19),
    ROW(SCALE, ligkern_to_scaled, 5, 13, 15, 19),
    ROW(SET, ligkern_set_word, 4, 6, 7, 15),
    ROW(CHECK, ligkern_check_table, 7),
    ROW(CHECKED, ligkern_set_checked_word, 4, 6, 7, 15),
    ROW(FILL, ligkern_fill_index, 7, 15),
    ROW(INDEXED, ligkern_set_word_indexed, 4, 6, 7, 15),
    ROW(CHECKED_INDEXED, ligkern_set_checked_word_indexed, 4, 6, 7, 15),
    ROW(BEGIN, ligkern_begin, 4, 6, 7, 15),
    ROW(STEP, ligkern_step, 4, 6, 7, 15),
    ROW(STEP_INDEXED, ligkern_step_indexed, 4, 6, 7, 15),
    ROW(ASK_FONT, ligkern_ask_font, 4, 7),
    ROW(START_WORD, ligkern_start_word, 4, 6, 7),
    ROW(FONT_STEP, ligkern_font_step, 4, 6, 7, 15),
    ROW(HAS, ligkern_has_replacement, 4, 7, 15),
    ROW(LISTED, ligkern_all_pairs_with_replacements, 7, 15),
    ROW(TABLE_SAFE, ligkern_table_is_seven_bit_safe, 7, 15),
    ROW(PROGRAM_SAFE, ligkern_program_is_seven_bit_safe, 1, 2, 4, 15),
    ROW(CHAIN, ligkern_instructions_for_entrypoint, 1, 2, 4, 15),
    ROW(UNPACK, ligkern_unpack_entrypoint, 1, 2, 4, 8, 9, 15),
    ROW(REACH, ligkern_reachable_iter, 1, 2, 4, 15),
    ROW(PACK, ligkern_pack_entrypoints, 1, 2, 4, 10, 11, 15),
    ROW(PACK_KERNS, ligkern_pack_kerns, 1, 2, 3, 15),
    ROW(UNPACK_KERNS, ligkern_unpack_kerns, 1, 2, 15),
    ROW(ASK, ligkern_ask_repair, 1, 2, 3, 4, 12, 15),
    ROW(COMMIT, ligkern_commit_repair, 1, 2, 3, 4, 12, 15, 25),
    ROW(READ_FILE, ligkern_deserialize, 15, 17),
    ROW(WRITE_FILE, ligkern_replace_lig_kern_program, 1, 2, 3, 4, 10, 11, 15, 17, 18),
    ROW(TEXT, ligcols, 2, 4, 5, 12, 13, 14, 15, 16),
    ROW(CONVERT, ligcols_convert, 2, 4, 5, 15, 16),
#undef ROW
};

/* A step changes the state, or the run, from which it goes. */
static void put_back(void)
{
    memcpy(state, state_before, sizeof state);
    memcpy(run, run_before, sizeof run);
}

/* Makes a call, and notes what it took and answered. */
static uint32_t take(enum call c)
{
    size_t bytes = bytes_taken(put_back, calls[c].from, calls[c].to);
    if (c == TEXT || c == CONVERT) number = (int32_t)number < 0 ? 0 - number : 0;
    if (bytes > calls[c].most) calls[c].most = bytes;
    calls[c].met |= (uint32_t)1 << number;
    return number;
}

/* .. and this is the number that is due. */
static void due(enum call c, uint32_t wanted)
{
    if (take(c) == wanted) return;
    fprintf(stderr, "stack: %s: %u where %u is due\n", calls[c].name, (unsigned)number, (unsigned)wanted);
    exit(1);
}

/* .. with another length of one list, or with another number in one place. */
static void with_length(size_t *length, size_t other, enum call c, uint32_t wanted)
{
    size_t was = *length;
    *length = other;
    due(c, wanted);
    *length = was;
}

static void with_number(int32_t *place, int32_t other, enum call c, uint32_t wanted)
{
    int32_t was = *place;
    *place = other;
    due(c, wanted);
    *place = was;
}

/* ---- fonts */

static uint64_t seed = 7;

static uint32_t below(uint32_t limit)
{
    seed ^= seed << 13;
    seed ^= seed >> 7;
    seed ^= seed << 17;
    return (uint32_t)(seed >> 33) % limit;
}

static int32_t letter(void) { return (int32_t)(97 + below(6)); }

static void put_instruction(size_t i, int32_t next, int32_t right, int32_t kind, int32_t operand)
{
    const int32_t those[] = {next, right, kind, operand};
    memcpy(instructions + 4 * i, those, sizeof those);
}

static void put_entry(int32_t character, int32_t where)
{
    entries[n.entries++] = character;
    entries[n.entries++] = where;
}

static void lend_all(void)
{
    memset(&n, 0, sizeof n);
    n.pair_room = sizeof pairs / sizeof *pairs;
    n.op_room = sizeof ops / sizeof *ops;
    n.loops = sizeof loops / sizeof *loops;
    n.work = sizeof work / sizeof *work;
    n.counts = 3;
    n.items = sizeof items / sizeof *items;
    n.count = 1;
    n.values = 3;
    n.state = 9;
    n.run = LIGKERN_FONT_RUN;
    n.item = 7;
    n.out = sizeof out / sizeof *out;
    n.entries_out = sizeof entries_out / sizeof *entries_out;
    n.through = sizeof through;
    n.chain = sizeof chain / sizeof *chain;
    n.warnings = sizeof warnings / sizeof *warnings;
    n.numbers = LIGKERN_INDEX;
    n.reply = sizeof reply;
    n.edges = 2;
    n.new_file = sizeof new_file;
    n.scaled = 1;
    n.found = sizeof found / sizeof *found;
    n.left = 1;
    size = magnification = 0;
    entry = 0;
    replacement = 97;
    override = -1;
    without_left = false;
    memset(existing, 0xff, sizeof existing);
    memset(passthrough, 0, sizeof passthrough);
}

/* Six letters, all kinds of instructions and all op bytes, either boundary or none; now and then what repair warns of. */
static void random_font(void)
{
    static const int32_t standard[] = {0, 1, 2, 3, 5, 6, 7, 11};
    size_t length = 1 + below(40);
    lend_all();
    n.instructions = 4 * length;
    n.kerns = below(4);
    n.passthrough = length;
    for (size_t i = 0; i < n.kerns; i++) kerns[i] = (int32_t)below(1 << 20) - (1 << 19);
    for (size_t i = 0; i < length; i++) {
        int32_t next = below(5) == 0 ? -1 : (int32_t)below(below(8) == 0 ? 256 : 2);
        int32_t op = below(9) == 0 ? (int32_t)below(128) : standard[below(8)];
        int32_t operand[] = {(int32_t)below(1 << 20), (int32_t)below(4), 256 * op + letter(), (int32_t)(below((uint32_t)length + 2) + 65536 * below(2))};
        uint32_t kind = below(8) == 0 ? 3 : below(3);
        put_instruction(i, next, letter(), (int32_t)kind, operand[kind]);
        passthrough[i] = below(9) == 0;
    }
    for (int32_t c = 97; c < 103; c++) {
        if (below(4) != 0) put_entry(c, (int32_t)below((uint32_t)length + 1));
    }
    boundary = below(3) == 0 ? -1 : letter();
    left_entry = below(3) == 0 ? -1 : (int32_t)below((uint32_t)length + 1);
    design_size = 10485760;
    existing[1] ^= (uint64_t)below(16) << 35;
    n.word = below(30);
    for (size_t i = 0; i < n.word; i++) word[i] = (uint32_t)letter();
    without_left = below(3) == 0;
    override = below(4) == 0 ? letter() : -1;
}

/* As many instructions as there may be and as many pairs: every character and the left boundary share a chain of 256. They are all kerns, or all loops: op
   byte 3 with the right character put in again. The instructions after them have kerns of their own, which differ. */
static void large_font(bool loop)
{
    lend_all();
    n.instructions = 4 * INSTRUCTIONS;
    n.kerns = KERNS;
    n.passthrough = INSTRUCTIONS;
    for (int32_t i = 0; i < INSTRUCTIONS; i++) {
        kerns[i] = i;
        put_instruction((size_t)i, i < 255 ? 0 : -1, i % 256, loop && i < 256 ? 2 : 0, loop && i < 256 ? 256 * 3 + i : i);
    }
    for (int32_t c = 0; c < 256; c++) put_entry(c, 0);
    boundary = 124;
    left_entry = 0;
    design_size = 10485760;
    n.word = LETTERS;
    for (size_t i = 0; i < LETTERS; i++) word[i] = below(256);
}

/* As much as a font file may hold: 16,000 instructions with kerns that differ, and as many redirects as there may be. */
static void file_font(void)
{
    lend_all();
    n.instructions = 4 * 16000;
    for (int32_t i = 0; i < 16000; i++) put_instruction((size_t)i, -1, i % 256, 0, i);
    for (int32_t c = 0; c < 255; c++) put_entry(c, 256 + c);
    boundary = 124;
    left_entry = 15999;
}

/* A font file without a program: its lengths, and 256 characters that exist. */
static void empty_file(void)
{
    const uint8_t lengths[] = {262 / 256, 262 % 256, 0, 0, 0, 0, 0, 255};
    memset(file, 0, sizeof file);
    memcpy(file, lengths, sizeof lengths);
    for (size_t c = 0; c < 256; c++) file[24 + 4 * c] = 1;
    n.file = 4 * 262;
}

__attribute__((format(printf, 1, 2))) static void put_text(const char *format, ...)
{
    va_list those;
    va_start(those, format);
    int length = vsnprintf((char *)text + n.text, sizeof text - n.text, format, those);
    va_end(those);
    if (length < 0 || (size_t)length >= sizeof text - n.text) die("a text is too long");
    n.text += (size_t)length;
}

/* The font as a column text: what of it a text may have. */
static void write_text(void)
{
    n.text = 0;
    put_text("D%12d\nR%12d\nL%12d\n", design_size, boundary, left_entry);
    for (size_t i = 0; i < n.instructions / 4 && i < 512; i++)
        put_text("I%12d%12d%12d%12d\n", instructions[4 * i], instructions[4 * i + 1], instructions[4 * i + 2], instructions[4 * i + 3]);
    for (size_t i = 0; i < n.kerns && i < 512; i++) put_text("K%12d\n", kerns[i]);
    for (size_t i = 0; i < n.entries / 2; i++) put_text("E%12d%12d\n", entries[2 * i], entries[2 * i + 1]);
    put_text("W");
    for (size_t i = 0; i < n.word && i < 64; i++) put_text("%12d", (int)word[i]);
    put_text("\n");
}

/* ---- the calls on a font */

static void take_steps(size_t most, enum call step)
{
    memset(state_before, 0, sizeof state_before);
    if (take(BEGIN) != 0) return;
    for (size_t i = 0; i < most; i++) {
        memcpy(state_before, state, sizeof state);
        if (take(step) != 0 || item[0] == 0) return;
    }
}

/* .. of a run that knows its font, the same font asked for now and then. */
static void keep_run(void) { memcpy(run_before, run, sizeof run); }

static void take_font_steps(size_t most)
{
    memset(run_before, 0, sizeof run_before);
    for (size_t i = 0; i < most; i++) {
        if (i != 0 && below(3) == 0) {
            take(ASK_FONT);
            keep_run();
        }
        if (take(i == 0 ? START_WORD : FONT_STEP) != 0 || (i != 0 && item[0] == 0)) return;
        keep_run();
    }
}

static void take_table(void)
{
    n.pairs = 6 * counts[0];
    n.ops = 2 * counts[1];
    asked_left = letter();
    asked_right = letter();
    take(SET);
    take(CHECK);
    take(CHECKED);
    take(FILL);
    take(INDEXED);
    take(CHECKED_INDEXED);
    take_steps(200, STEP);
    take_steps(200, STEP_INDEXED);
    take_font_steps(200);
    take(HAS);
    take(LISTED);
    take(TABLE_SAFE);
    numbers[5 * below(257)] ^= (uint64_t)1 << below(64);
    take(INDEXED);
    take(CHECKED_INDEXED);
}

/* The font written into a file, and read again where it was taken. */
static void take_file(void)
{
    empty_file();
    if (take(WRITE_FILE) == 0) {
        memcpy(file, new_file, values[0]);
        n.file = values[0];
    }
    take(READ_FILE);
}

/* The warnings asked for, and the font repaired with them where they were told. */
static uint32_t take_repair(void)
{
    n.handed = take(ASK) == 0 ? 4 * values[0] : 0;
    return take(COMMIT);
}

static void take_font(void)
{
    take(PROGRAM_SAFE);
    for (int32_t e = 0; e < 6; e++) {
        entry = e;
        take(CHAIN);
        take(UNPACK);
    }
    take(REACH);
    take(PACK);
    take(PACK_KERNS);
    take(UNPACK_KERNS);
    take_repair();
    take_file();
    write_text();
    take(TEXT);
    take(CONVERT);
    size = below(2) ? 0 : (int32_t)(1 + below(134217727));
    magnification = size || below(2) ? 0 : (int32_t)(1 + below(32768));
    take(SCALE);
    if (take(COMPILE) == 0) take_table();
    size = magnification = 0;
}

/* ---- a call for each number */

/* 1 and 2 of a program, and 15 of its values, with which every call about one is refused. */
static void refuse_program(enum call c)
{
    with_length(&n.instructions, n.instructions - 1, c, 1);
    with_length(&n.instructions, 4 * (INSTRUCTIONS + 1), c, 1);
    with_number(instructions + 2, 9, c, 2);
    if (c != COMPILE && c != COMMIT) with_length(&n.values, 0, c, 15);
}

static void refuse_table(enum call c)
{
    with_number(pairs + 3, 9, c, 7);
    with_length(&n.pairs, n.pairs - 1, c, 7);
}

static void refuse_word(enum call c)
{
    with_number(&boundary, 256, c, 4);
    with_length(&n.word, LETTERS + 1, c, 6);
}

/* The font of c/captions.c with a loop, and with a redirect that leads past the instructions. */
static void plain_font(void)
{
    lend_all();
    n.instructions = 4 * 4;
    put_instruction(0, 0, 'i', 2, 200);
    put_instruction(1, 0, '!', 1, 0);
    put_instruction(2, -1, 'b', 2, 256 * 3 + 'b');
    put_instruction(3, -1, 0, 3, 9);
    n.kerns = 1;
    kerns[0] = 131072;
    n.passthrough = 4;
    put_entry('f', 0);
    boundary = left_entry = -1;
    design_size = 10485760;
    n.word = 3;
    word[0] = 'f';
    word[1] = 'i';
    word[2] = '!';
}

static void refuse_programs(void)
{
    plain_font();
    static const enum call programs[] = {COMPILE, PROGRAM_SAFE, CHAIN, UNPACK, REACH, PACK, PACK_KERNS, UNPACK_KERNS, ASK, COMMIT};
    for (size_t i = 0; i < sizeof programs / sizeof *programs; i++) refuse_program(programs[i]);
    with_length(&n.kerns, KERNS + 1, COMPILE, 3);
    with_length(&n.kerns, KERNS + 1, PACK_KERNS, 3);
    with_length(&n.kerns, KERNS + 1, ASK, 3);
    with_length(&n.kerns, KERNS + 1, COMMIT, 3);
    static const enum call entered[] = {COMPILE, PROGRAM_SAFE, REACH, PACK, ASK, COMMIT};
    for (size_t i = 0; i < sizeof entered / sizeof *entered; i++) with_number(entries, 256, entered[i], 4);
    with_number(&entry, -1, CHAIN, 4);
    with_number(&entry, 256, UNPACK, 4);
    with_number(&entry, 4, UNPACK, 8);
    with_number(&entry, 3, UNPACK, 9);
    with_number(entries + 1, 65535, PACK, 11);
    with_number(&design_size, -1, COMPILE, 5);
    with_length(&n.work, 0, COMPILE, 12);
    with_length(&n.work, 0, ASK, 12);
    with_length(&n.work, 0, COMMIT, 12);
    with_number(kerns, 16777216, COMPILE, 13);
    with_length(&n.op_room, 0, COMPILE, 14);
    with_length(&n.loops, 0, COMPILE, 15);
    with_number(&size, 134217728, COMPILE, 19);
    with_number(&magnification, 32769, COMPILE, 19);
    with_number(&design_size, -1, SCALE, 5);
    with_number(kerns, 16777216, SCALE, 13);
    with_length(&n.scaled, 0, SCALE, 15);
    with_number(&size, -1, SCALE, 19);
    with_number(&magnification, 32769, SCALE, 19);
    with_length(&n.chain, 0, CHAIN, 15);
    with_length(&n.through, 0, UNPACK, 15);
    static const enum call written[] = {REACH, PACK, PACK_KERNS, UNPACK_KERNS, COMMIT};
    for (size_t i = 0; i < sizeof written / sizeof *written; i++) with_length(&n.out, 0, written[i], 15);
    with_length(&n.warnings, 0, ASK, 15);
    if (take_repair() != 0) die("a repair is refused");
    with_length(&n.found, n.handed - 1, COMMIT, 15);
    with_length(&n.left, 0, COMMIT, 15);
    with_length(&n.handed, n.handed - 4, COMMIT, 25);
    n.entries = 0;
    for (int32_t c = 0; c < 256; c++) put_entry(c, 256 + c);
    due(PACK, 10);
}

static void refuse_files(void)
{
    plain_font();
    empty_file();
    due(WRITE_FILE, 18);
    n.instructions = 4 * 3;
    due(WRITE_FILE, 0);
    refuse_program(WRITE_FILE);
    with_length(&n.kerns, KERNS + 1, WRITE_FILE, 3);
    with_number(entries, 256, WRITE_FILE, 4);
    with_number(entries + 1, 65535, WRITE_FILE, 11);
    with_length(&n.file, n.file - 1, WRITE_FILE, 17);
    with_length(&n.new_file, 0, WRITE_FILE, 15);
    take_file();
    due(READ_FILE, 0);
    with_length(&n.file, n.file - 1, READ_FILE, 17);
    with_length(&n.out, 0, READ_FILE, 15);
    with_length(&n.edges, 1, READ_FILE, 15);
    with_length(&n.counts, 2, READ_FILE, 15);
    n.entries = 0;
    for (int32_t c = 0; c < 256; c++) put_entry(c, 256 + c);
    due(WRITE_FILE, 10);
}

static void refuse_tables(void)
{
    plain_font();
    due(COMPILE, 0);
    n.pairs = 6 * counts[0];
    n.ops = 2 * counts[1];
    due(FILL, 0);
    memset(run_before, 0, sizeof run_before);
    static const enum call captions[] = {SET, INDEXED, BEGIN, START_WORD};
    for (size_t i = 0; i < 4; i++) {
        refuse_word(captions[i]);
        refuse_table(captions[i]);
    }
    refuse_table(CHECK);
    refuse_table(ASK_FONT);
    with_number(&boundary, 256, ASK_FONT, 4);
    static const enum call checked[] = {CHECKED, CHECKED_INDEXED};
    for (size_t i = 0; i < 2; i++) {
        refuse_word(checked[i]);
        with_number(pairs + 9, 9, checked[i], 7); /* the second pair, which the word reads */
    }
    static const enum call listed[] = {SET, INDEXED, CHECKED, CHECKED_INDEXED};
    for (size_t i = 0; i < 4; i++) with_length(&n.items, 0, listed[i], 15);
    with_length(&n.state, 8, BEGIN, 15);
    due(BEGIN, 0);
    memcpy(state_before, state, sizeof state);
    due(START_WORD, 0);
    keep_run();
    static const enum call steps[] = {STEP, STEP_INDEXED, FONT_STEP};
    for (size_t i = 0; i < 3; i++) {
        refuse_word(steps[i]);
        with_length(steps[i] == FONT_STEP ? &n.run : &n.state, 8, steps[i], 7);
        with_length(&n.item, 6, steps[i], 15);
    }
    static const enum call questions[] = {HAS, LISTED, TABLE_SAFE};
    with_number(&asked_left, 256, HAS, 4);
    for (size_t i = 0; i < 3; i++) {
        with_length(&n.pairs, n.pairs - 1, questions[i], 7);
        with_length(&n.values, 0, questions[i], 15);
    }
    with_length(&n.out, 0, LISTED, 15);
    with_length(&n.pairs, n.pairs - 1, FILL, 7);
    with_length(&n.numbers, 0, FILL, 15);
}

static void refuse_texts(void)
{
    plain_font();
#define TEXT_WITH(place, other, wanted)                                                                                                                   \
    do {                                                                                                                                                  \
        int32_t was = place;                                                                                                                              \
        place = other;                                                                                                                                    \
        write_text();                                                                                                                                     \
        place = was;                                                                                                                                      \
        due(TEXT, wanted);                                                                                                                                \
        if (wanted < 12) due(CONVERT, wanted);                                                                                                            \
    } while (0)
    TEXT_WITH(instructions[2], 9, 2);
    TEXT_WITH(entries[0], 256, 4);
    TEXT_WITH(design_size, -1, 5);
    TEXT_WITH(kerns[0], 16777216, 13);
#undef TEXT_WITH
    write_text();
    with_length(&n.reply, 10, TEXT, 15);
    with_length(&n.reply, 10, CONVERT, 15);
    with_length(&n.text, n.text - 1, TEXT, 16);
    with_length(&n.text, n.text - 1, CONVERT, 16);
    with_length(&n.text, LIGCOLS_TEXT + 1, TEXT, 16);
    /* 513 pairs of three letters that share a chain. */
    n.entries = 0;
    n.instructions = 4 * 171;
    for (int32_t i = 0; i < 171; i++) put_instruction((size_t)i, i < 170 ? 0 : -1, i, 2, 200);
    for (int32_t c = 0; c < 3; c++) put_entry(c, 0);
    write_text();
    due(TEXT, 12);
    /* 508 pairs: 8 letters put 200 before each of 50 others, 200 puts 201 there, and 201 a kern. Each of the 400 has five ops. */
    n.entries = 0;
    n.instructions = 4 * 151;
    for (int32_t i = 0; i < 50; i++) {
        put_instruction((size_t)i, 0, i, 2, 256 * 3 + 200);
        put_instruction((size_t)(51 + i), i < 49 ? 0 : -1, i, 2, 256 * 7 + 201);
        put_instruction((size_t)(101 + i), i < 49 ? 0 : -1, i, 0, 1000);
    }
    put_instruction(50, -1, 200, 0, 1000);
    for (int32_t c = 0; c < 8; c++) put_entry(c, 0);
    put_entry(200, 51);
    put_entry(201, 101);
    write_text();
    due(TEXT, 14);
}

/* A call that takes a known amount must be found to: of the many bytes of its list it writes the lowest, with a paint's own value. */
enum { KNOWN = 100000 };

static __attribute__((noinline)) int known(int paint)
{
    unsigned char list[KNOWN];
    list[0] = (unsigned char)paint;
    __asm__ volatile("" : : "r"(list) : "memory");
    return 0;
}

CALL(known, 0xa5)

static void check_paint(void)
{
    size_t bytes = bytes_taken(put_back, call_known, (void (*)(void))known);
    if (bytes < KNOWN || bytes > KNOWN + 64) die("what a call takes is not found");
}

/* Every number that a call has must have been met: else the inputs are not what they are meant to be. */
static void check_met(void)
{
    for (size_t c = 0; c < sizeof calls / sizeof *calls; c++) {
        uint32_t all = 1;
        for (const uint8_t *k = calls[c].refusals; *k != 0; k++) all |= (uint32_t)1 << *k;
        if (calls[c].met != all) {
            fprintf(stderr, "stack: %s: answered %#x where %#x is due\n", calls[c].name, (unsigned)calls[c].met, (unsigned)all);
            exit(1);
        }
    }
}

int main(void)
{
    make_stack();
    check_paint();
    for (int i = 0; i < FONTS; i++) {
        random_font();
        take_font();
    }
    for (int i = 0; i < 2; i++) {
        large_font(i == 1);
        take_font();
    }
    file_font();
    take_file();
    due(READ_FILE, 0);
    refuse_programs();
    refuse_files();
    refuse_tables();
    refuse_texts();
    check_met();
    for (size_t c = 0; c < sizeof calls / sizeof *calls; c++) printf("%s %zu\n", calls[c].name, calls[c].most);
    return fflush(stdout) != 0 || ferror(stdout);
}
