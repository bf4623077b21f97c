/* One call of ligcols on the text of standard input; writes the reply. The room for the reply is LIGCOLS_REPLY bytes, or as many as the argument says. A text without a W line is counted too:
   its cost is reading, compiling and the table. */
#include <stdio.h>
#include <stdlib.h>

#include "../../c/ligcols.h"

static uint8_t text[LIGCOLS_TEXT], reply[LIGCOLS_REPLY];

int main(int count, char **words) {
    size_t room = count > 1 ? (size_t)strtoul(words[1], NULL, 10) : sizeof reply;
    size_t n = fread(text, 1, sizeof text, stdin);
    int32_t r = room <= sizeof reply ? ligcols(text, n, reply, room) : -1;
    if (r < 0) return 1;
    return fwrite(reply, 1, (size_t)r, stdout) == (size_t)r ? 0 : 1;
}
