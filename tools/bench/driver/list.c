/* list FONT LETTERS CALL HOW N: one call of the setter's library on a font of 32,767 instructions that is written as a property list (tools/bench/font);
   LETTERS is not looked at.

   CALL  display: ligkern_display. from_pl_source_code: ligkern_from_pl_source_code, of the text that it wrote.
   HOW   answer: writes the text; count, time: see meter.h.

   What is lent has room for the longest text. */
#include "ligkern.h"
#include "meter.h"

enum { MOST = 32767, TEXT = 60 + 48 * MOST + 18 * 256 };

static int32_t instructions[4 * MOST], kerns[MOST], entries[2 * 256], boundary, left_entry;
static uint8_t text[TEXT];
static uint32_t said;
static uint64_t bytes;
static size_t steps, kern_count, entry_count;
static int32_t read_steps[4 * MOST], read_kerns[MOST], read_entries[2 * 256], edges[2];
static uint64_t counts[3];

static int32_t next_number(char **at) {
    char *end;
    long n = strtol(*at, &end, 10);
    if (end == *at) die("a number is missing");
    *at = end;
    return (int32_t)n;
}

static size_t read_list(char **at, int32_t *list, size_t each, size_t most) {
    size_t n = (size_t)next_number(at);
    if (n > most) die("a list is too long");
    for (size_t i = 0; i < each * n; i++) list[i] = next_number(at);
    return n;
}

static void read_font(const char *path) {
    size_t length;
    char *at = read_whole(path, &length);
    steps = read_list(&at, instructions, 4, MOST);
    kern_count = read_list(&at, kerns, 1, MOST);
    entry_count = read_list(&at, entries, 2, 256);
    boundary = next_number(&at);
    left_entry = next_number(&at);
}

static void display(void) {
    said = ligkern_display(instructions, 4 * steps, kerns, kern_count, entries, 2 * entry_count, boundary, left_entry, text, TEXT, &bytes, 1);
}

static void from_pl(void) {
    said = ligkern_from_pl_source_code(text, bytes, read_steps, 4 * MOST, read_kerns, MOST, read_entries, 2 * 256, edges, 2, counts, 3);
}

static void nothing(void) {}

int main(int argc, char **argv) {
    if (argc < 5) die("usage: list FONT LETTERS CALL HOW N");
    read_font(argv[1]);
    display();
    if (said) die("writing is refused");
    if (!strcmp(argv[4], "answer")) {
        fwrite(text, 1, bytes, stdout);
    } else if (!strcmp(argv[3], "display")) {
        meter(argv[4], atol(argv[5]), nothing, display);
    } else if (!strcmp(argv[3], "from_pl_source_code")) {
        meter(argv[4], atol(argv[5]), nothing, from_pl);
    } else {
        die("no such call");
    }
    if (said) die("refused");
    return 0;
}
