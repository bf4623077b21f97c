/* An example of a host that compiles a font once, checks its table once, and sets captions one after the other by an index, with c/ligkern.h. The font is that
   of examples/ordinary.txt with a house ligature more. 'f' and 'i' become the ligature 200, a kern stands between 'f' and '!', and a 'b' that begins a word
   becomes the ligature 201 with the left boundary. Its entries are not packed, and it needs no repair.

   captions < LINES     each line is a word, its bytes the characters; writes its items, one a line, and an empty line after them. Last comes 'f!', in the
                        font magnified by 1,200 thousandths.
                        Ends with 0, or with 2 where the font or a word is refused, a loop is found or a line is too long */
#include "ligkern.h"

#include <inttypes.h>
#include <stdio.h>
#include <string.h>

enum { PAIRS = 64, OPS = 128, LOOPS = 16, LETTERS = 256 };

#define LENGTH(list) (sizeof(list) / sizeof *(list))

/* next, right character, kind, operand; kind 2 is a ligature, 256 times the op byte plus the inserted character, and kind 1 an index of the kerns */
static const int32_t instructions[] = {
    0,  'i', 2, 200, /* 'f' 'i': LIG, the ligature 200 */
    -1, '!', 1, 0,   /* 'f' '!': kern 0 */
    -1, 'b', 2, 201, /* the left boundary and 'b': LIG, the ligature 201 */
};
static const int32_t kerns[] = {131072};
static const int32_t entries[] = {'f', 0};
static const int32_t boundary = -1, left_entry = 2, design_size = 10485760;

static int32_t pairs[6 * PAIRS], ops[2 * OPS], loops[2 * LOOPS];
static uint32_t work[16 * PAIRS];
static uint64_t counts[3], index_of[LIGKERN_INDEX];

/* Room for eight items a letter, which is more than this font gives. A host with other fonts works it out, or lends more after a 15 (c/ligkern.h, LISTS). */
static int32_t items[6 * 8 * LETTERS];

/* Compiles the font, by a magnification in thousandths; 0 is its design size. Then checks the table and fills its index, once for all words. Returns 0 where
   it is taken and every pair of it ends. */
static int compile(int32_t magnification)
{
    uint32_t number = ligkern_compile(instructions, LENGTH(instructions), kerns, LENGTH(kerns), entries, LENGTH(entries), boundary, left_entry, design_size,
                                      0, magnification, pairs, LENGTH(pairs), ops, LENGTH(ops), loops, LENGTH(loops), work, LENGTH(work), counts,
                                      LENGTH(counts));
    if (number != 0) {
        fprintf(stderr, "the font is refused: %" PRIu32 "\n", number);
        return 2;
    }
    fprintf(stderr, "%" PRIu64 " pairs, %" PRIu64 " ops, %" PRIu64 " loops\n", counts[0], counts[1], counts[2]);
    if (counts[2] != 0) {
        fprintf(stderr, "the pair %" PRId32 ", %" PRId32 " never ends\n", loops[0], loops[1]);
        return 2;
    }
    number = ligkern_check_table(pairs, 6 * counts[0], ops, 2 * counts[1]);
    if (number == 0) {
        number = ligkern_fill_index(pairs, 6 * counts[0], index_of, LENGTH(index_of));
    }
    if (number != 0) {
        fprintf(stderr, "the table is refused: %" PRIu32 "\n", number);
        return 2;
    }
    return 0;
}

/* Writes an item: its six numbers, with the letters of a ligature's original, a part of the word. */
static void show(const int32_t *item, const char *word)
{
    switch (item[0]) {
    case 0: printf("character %" PRId32 "\n", item[1]); break;
    case 1:
        printf("ligature %" PRId32 " of '%.*s'%s%s\n", item[1], (int)item[3], word + item[2], item[4] ? ", left boundary" : "",
               item[5] ? ", right boundary" : "");
        break;
    default: printf("kern %" PRId32 "\n", item[1]); break;
    }
}

/* Sets one word, of n letters. Returns 0 where it is taken. */
static int set(const char *word, size_t n)
{
    uint32_t letters[LETTERS];
    uint64_t count[1];
    for (size_t i = 0; i < n; i++) {
        letters[i] = (unsigned char)word[i];
    }
    uint32_t number = ligkern_set_checked_word_indexed(index_of, LENGTH(index_of), pairs, 6 * counts[0], ops, 2 * counts[1], boundary, letters, n, false, -1,
                                                       items, LENGTH(items), count, LENGTH(count));
    if (number != 0) {
        fprintf(stderr, "'%.*s' is refused: %" PRIu32 "\n", (int)n, word, number);
        return 2;
    }
    for (uint64_t k = 0; k < count[0]; k++) {
        show(items + 6 * k, word);
    }
    printf("\n");
    return 0;
}

int main(void)
{
    char line[LETTERS + 2];
    int ended = compile(0);
    while (ended == 0 && fgets(line, sizeof line, stdin) != NULL) {
        size_t n = strcspn(line, "\n");
        if (n > LETTERS) {
            fprintf(stderr, "a line of over %d letters\n", LETTERS);
            return 2;
        }
        ended = set(line, n);
    }
    if (ended == 0) {
        ended = compile(1200);
    }
    if (ended == 0) {
        ended = set("f!", 2);
    }
    return fflush(stdout) != 0 || ferror(stdout) ? 2 : ended;
}
