/* An example of a host: hands the text of a file to the letter setter and writes its reply to standard output. Where the
   text is refused, it writes N and the number, as the program `ligcols` does, and the reason to standard error.

   host FILE              ends with 0 after a reply, 1 after a refusal, 2 where the file can't be read or the reply not written
   host convert FILE      the same with the text that it becomes without kern values */
#include "ligcols.h"

#include <inttypes.h>
#include <stdio.h>
#include <string.h>

/* One byte more than a text may have: of a longer file so much is read that it is seen to be too long. */
static uint8_t text[LIGCOLS_TEXT + 1];
static uint8_t reply[LIGCOLS_REPLY];

/* Why a text is refused: the numbers of c/ligcols.h in words. */
static const char *reason(int32_t number)
{
    switch (number) {
    case 2: return "a record is no instruction";
    case 4: return "a character, boundary or entry out of range, or a character entered twice";
    case 5: return "design size negative";
    case 12: return "more than 512 pairs with a rule, unfinished ones counted";
    case 13: return "a kern that is the rule of some pair has a top byte neither 0 nor 255";
    case 14: return "the finished pairs have more than 2,048 ops";
    case 15: return "more than 64 loops, or the reply is too long";
    case 16: return "a column line is unreadable, misplaced or past a limit, or D is missing";
    default: return "a number that a text does not give";
    }
}

/* Reads a file into text. Returns its length, or -1. */
static long read_file(const char *name)
{
    FILE *file = fopen(name, "rb");
    if (file == NULL) {
        return -1;
    }
    size_t length = fread(text, 1, sizeof text, file);
    int failed = ferror(file);
    if (fclose(file) != 0 || failed) {
        return -1;
    }
    return (long)length;
}

/* Writes a reply, or N and the number with its reason. Returns how the program ends. */
static int report(int32_t answer)
{
    if (answer >= 0) {
        fwrite(reply, 1, (size_t)answer, stdout);
    } else {
        printf("N%12" PRId32 "\n", -answer);
        fprintf(stderr, "refused: %" PRId32 ", %s\n", -answer, reason(-answer));
    }
    if (fflush(stdout) != 0 || ferror(stdout)) {
        perror("standard output");
        return 2;
    }
    return answer >= 0 ? 0 : 1;
}

int main(int argc, char **argv)
{
    int converts = argc == 3 && strcmp(argv[1], "convert") == 0;
    if (argc != 2 && !converts) {
        fprintf(stderr, "usage: %s [convert] FILE\n", argv[0]);
        return 2;
    }
    long length = read_file(argv[argc - 1]);
    if (length < 0) {
        perror(argv[argc - 1]);
        return 2;
    }
    if (converts) {
        return report(ligcols_convert(text, (size_t)length, reply, sizeof reply));
    }
    return report(ligcols(text, (size_t)length, reply, sizeof reply));
}
