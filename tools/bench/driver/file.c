/* file FILE LETTERS CALL HOW N: one call of the setter's library on a font file that has no redirect (tools/bench/font); LETTERS is not looked at.

   CALL  read: deserialize; write: replace_lig_kern_program, with the font that the file itself holds.
   HOW   answer: writes the file that replace_lig_kern_program leaves; count, time: see meter.h.

   What is lent has room for the largest file. */
#include "ligkern.h"
#include "meter.h"

static const uint8_t *file;
static size_t length;
static int32_t instructions[4 * LIGKERN_MOST_WORDS], kerns[LIGKERN_MOST_WORDS], entries[2 * 256], edges[2];
static uint8_t new_file[4 * LIGKERN_MOST_WORDS];
static uint64_t counts[3], bytes;
static uint32_t said;

static void read_file(void) {
    said = ligkern_deserialize(file, length, instructions, 4 * LIGKERN_MOST_WORDS, kerns, LIGKERN_MOST_WORDS, entries, 2 * 256, edges, 2, counts, 3);
}

static void write_file(void) {
    said = ligkern_replace_lig_kern_program(file, length, instructions, 4 * counts[0], kerns, counts[1], entries, 2 * counts[2], edges[0], edges[1], new_file,
                                            sizeof new_file, &bytes, 1);
}

static void nothing(void) {}

int main(int argc, char **argv) {
    if (argc < 5) die("usage: file FILE LETTERS CALL HOW N");
    file = (const uint8_t *)read_whole(argv[1], &length);
    read_file();
    if (said) die("the file is refused");
    if (!strcmp(argv[4], "answer")) {
        write_file();
        fwrite(new_file, 1, bytes, stdout);
    } else if (!strcmp(argv[3], "read")) {
        meter(argv[4], atol(argv[5]), nothing, read_file);
    } else if (!strcmp(argv[3], "write")) {
        meter(argv[4], atol(argv[5]), nothing, write_file);
    } else {
        die("no such call");
    }
    if (said) die("refused");
    return 0;
}
