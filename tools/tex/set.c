/* The library asked from outside: requests on standard input, one answer a line.

   A request is a letter and decimal numbers, with any white space between them.
     F boundary left_entry design_size size magnification, counts of instructions, kerns and entries, then their numbers (four, one and two each)
       compiles a font and keeps it. Answer: F, the number of the refusal or 0, counts of pairs, ops and loops, then the loops, two numbers each.
     W 1 or 0 for the left boundary, 1 or 0 for the right one, count of letters, then the letters
       sets a word with the font kept. Answer: W, the number of the refusal or 0, count of items, then the items, six numbers each.
     D count of bytes, then the bytes
       reads a font file. Answer: D, the number of the refusal or 0, boundary, left_entry, counts of instructions, kerns and entries, then their numbers,
       and then each entry unpacked, or -1.
     R the numbers of F, of which the three sizes are not looked at, then those of D
       writes the font into the file, its entries unpacked. Answer: R, the number of the refusal or 0, count of bytes, then the bytes.
   A list that proves too short is lent again at twice its length, up to OPS_MOST ops or ITEMS_MOST items; past these the refusal stands. */
#include <inttypes.h>
#include <stdio.h>
#include <stdlib.h>

#include "ligkern.h"

enum { OPS_MOST = 1 << 22, ITEMS_MOST = 1 << 12 };

struct program {
    int32_t boundary, left_entry, design_size, size, magnification, *instructions, *kerns, *entries;
    size_t instruction_count, kern_count, entry_count;
};

struct table {
    int32_t boundary, *pairs, *ops, *loops;
    size_t pair_count, op_count, loop_count;
};

static void *lend(size_t count, size_t width) {
    void *p = calloc(count + 1, width);
    if (p == NULL) exit(3);
    return p;
}

static int32_t read_number(void) {
    int32_t n;
    if (scanf("%" SCNd32, &n) != 1) {
        fputs("set: a number was due\n", stderr);
        exit(2);
    }
    return n;
}

static int32_t *read_numbers(size_t count) {
    int32_t *list = lend(count, sizeof *list);
    for (size_t i = 0; i < count; i++) list[i] = read_number();
    return list;
}

static void put_numbers(const int32_t *list, size_t count) {
    for (size_t i = 0; i < count; i++) printf(" %" PRId32, list[i]);
}

static void write_numbers(const int32_t *list, size_t count) {
    put_numbers(list, count);
    putchar('\n');
}

static uint8_t *read_bytes(size_t *count) {
    *count = (size_t)read_number();
    uint8_t *bytes = lend(*count, 1);
    for (size_t i = 0; i < *count; i++) bytes[i] = (uint8_t)read_number();
    return bytes;
}

static struct program read_program(void) {
    struct program p;
    p.boundary = read_number();
    p.left_entry = read_number();
    p.design_size = read_number();
    p.size = read_number();
    p.magnification = read_number();
    p.instruction_count = (size_t)read_number();
    p.kern_count = (size_t)read_number();
    p.entry_count = (size_t)read_number();
    p.instructions = read_numbers(4 * p.instruction_count);
    p.kerns = read_numbers(p.kern_count);
    p.entries = read_numbers(2 * p.entry_count);
    return p;
}

static void drop_program(struct program *p) {
    free(p->instructions);
    free(p->kerns);
    free(p->entries);
}

static void drop_table(struct table *t) {
    free(t->pairs);
    free(t->ops);
    free(t->loops);
    *t = (struct table){0};
}

/* No font has more pairs with a rule than this: each left, the boundary among them, with each right that an instruction names. */
static size_t most_pairs(const struct program *p) {
    size_t rights = p->instruction_count < 256 ? p->instruction_count : 256;
    return (p->entry_count + 1) * rights;
}

/* Compiles with room for so many ops; the table is what was written, and on a refusal it is empty. */
static uint32_t compile_into(const struct program *p, size_t ops_most, struct table *t) {
    size_t most = most_pairs(p);
    uint64_t counts[3] = {0, 0, 0};
    uint32_t *work = lend(16 * most, sizeof *work);
    t->boundary = p->boundary;
    t->pairs = lend(6 * most, sizeof *t->pairs);
    t->ops = lend(2 * ops_most, sizeof *t->ops);
    t->loops = lend(2 * most, sizeof *t->loops);
    uint32_t r = ligkern_compile(p->instructions, 4 * p->instruction_count, p->kerns, p->kern_count, p->entries, 2 * p->entry_count, p->boundary,
                                 p->left_entry, p->design_size, p->size, p->magnification, t->pairs, 6 * most, t->ops, 2 * ops_most, t->loops,
                                 2 * most, work, 16 * most, counts, 3);
    free(work);
    t->pair_count = (size_t)counts[0];
    t->op_count = (size_t)counts[1];
    t->loop_count = (size_t)counts[2];
    return r;
}

static uint32_t compile(const struct program *p, struct table *t) {
    size_t ops_most = 4 * most_pairs(p) + 64;
    for (;;) {
        drop_table(t);
        uint32_t r = compile_into(p, ops_most, t);
        if (r != 14 || ops_most >= OPS_MOST) return r;
        ops_most *= 2;
    }
}

static void answer_font(struct table *t) {
    struct program p = read_program();
    uint32_t r = compile(&p, t);
    printf("F %" PRIu32 " %zu %zu %zu", r, t->pair_count, t->op_count, t->loop_count);
    write_numbers(t->loops, 2 * t->loop_count);
    drop_program(&p);
}

static uint32_t set_word(const struct table *t, const uint32_t *word, size_t length, bool left, bool right, int32_t **items, uint64_t *count) {
    int32_t boundary = right ? t->boundary : -1;
    for (size_t most = 2 * length + 16;; most *= 2) {
        *items = lend(6 * most, sizeof **items);
        uint32_t r = ligkern_set_word(t->pairs, 6 * t->pair_count, t->ops, 2 * t->op_count, boundary, word, length, !left, -1, *items, 6 * most,
                                      count, 1);
        if (r != 15 || most >= ITEMS_MOST) return r;
        free(*items);
    }
}

static void answer_word(const struct table *t) {
    bool left = read_number() != 0, right = read_number() != 0;
    int32_t *items;
    size_t length = (size_t)read_number();
    uint32_t *word = lend(length, sizeof *word);
    uint64_t count = 0;
    for (size_t i = 0; i < length; i++) word[i] = (uint32_t)read_number();
    uint32_t r = set_word(t, word, length, left, right, &items, &count);
    printf("W %" PRIu32 " %" PRIu64, r, count);
    write_numbers(items, 6 * (size_t)count);
    free(items);
    free(word);
}

/* An entry unpacked, or -1 where it is refused. */
static int32_t unpack(const int32_t *instructions, size_t count, int32_t entry) {
    uint8_t *passthrough = lend(count, 1), *after = lend(count, 1);
    uint64_t value = 0;
    uint32_t r = ligkern_unpack_entrypoint(instructions, 4 * count, entry, passthrough, count, after, count, &value, 1);
    free(passthrough);
    free(after);
    return r == 0 ? (int32_t)value : -1;
}

static void answer_file(void) {
    size_t length;
    uint8_t *file = read_bytes(&length);
    int32_t *instructions = lend(4 * LIGKERN_MOST_WORDS, sizeof *instructions), *kerns = lend(LIGKERN_MOST_WORDS, sizeof *kerns);
    int32_t entries[2 * 256] = {0}, edges[2] = {0, 0};
    uint64_t counts[3] = {0, 0, 0};
    uint32_t r = ligkern_deserialize(file, length, instructions, 4 * LIGKERN_MOST_WORDS, kerns, LIGKERN_MOST_WORDS, entries, 2 * 256, edges, 2, counts, 3);
    printf("D %" PRIu32 " %" PRId32 " %" PRId32 " %" PRIu64 " %" PRIu64 " %" PRIu64, r, edges[0], edges[1], counts[0], counts[1], counts[2]);
    put_numbers(instructions, 4 * (size_t)counts[0]);
    put_numbers(kerns, (size_t)counts[1]);
    put_numbers(entries, 2 * (size_t)counts[2]);
    for (size_t i = 0; i < counts[2]; i++) printf(" %" PRId32, unpack(instructions, (size_t)counts[0], entries[2 * i + 1]));
    putchar('\n');
    free(file);
    free(instructions);
    free(kerns);
}

static void answer_writing(void) {
    struct program p = read_program();
    size_t length;
    uint8_t *old = read_bytes(&length), *file = lend(4 * LIGKERN_MOST_WORDS, 1);
    uint64_t count = 0;
    uint32_t r = ligkern_replace_lig_kern_program(old, length, p.instructions, 4 * p.instruction_count, p.kerns, p.kern_count, p.entries, 2 * p.entry_count,
                                                  p.boundary, p.left_entry, file, 4 * LIGKERN_MOST_WORDS, &count, 1);
    printf("R %" PRIu32 " %" PRIu64, r, count);
    for (size_t i = 0; i < count; i++) printf(" %u", (unsigned)file[i]);
    putchar('\n');
    drop_program(&p);
    free(old);
    free(file);
}

int main(void) {
    struct table kept = {0};
    char request;
    while (scanf(" %c", &request) == 1) {
        if (request == 'F') {
            answer_font(&kept);
        } else if (request == 'W' && kept.pairs != NULL) {
            answer_word(&kept);
        } else if (request == 'D') {
            answer_file();
        } else if (request == 'R') {
            answer_writing();
        } else {
            fprintf(stderr, "set: no request: %c\n", request);
            return 2;
        }
    }
    drop_table(&kept);
    return 0;
}
