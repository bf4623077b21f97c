/* text TEXT LETTERS text HOW N: one call of ligcols on the column text of a file; LETTERS is not looked at. HOW answer: writes the reply; count, time: see meter.h. */
#include "ligcols.h"
#include "meter.h"

static uint8_t reply[LIGCOLS_REPLY];
static const uint8_t *text;
static size_t length;
static int32_t said;

static void answer(void) { said = ligcols(text, length, reply, sizeof reply); }
static void nothing(void) {}

int main(int argc, char **argv) {
    if (argc < 5) die("usage: text TEXT LETTERS text HOW N");
    text = (const uint8_t *)read_whole(argv[1], &length);
    if (!strcmp(argv[4], "answer")) {
        answer();
        if (said > 0) fwrite(reply, 1, (size_t)said, stdout);
    } else {
        meter(argv[4], atol(argv[5]), nothing, answer);
    }
    if (said < 0) die("refused");
    return 0;
}
