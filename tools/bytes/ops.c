/* ops: compiles a font of one instruction, a ligature with the op byte that is given, once. tools/bytes/run counts the instructions of the call. */
#include <stdint.h>
#include <stdlib.h>
#include "ligkern.h"

int main(int argc, char **argv) {
    if (argc != 2) return 2;
    const int32_t instructions[4] = {-1, 66, 2, 256 * atoi(argv[1]) + 67}, entries[2] = {65, 0};
    int32_t pairs[6], ops[8], loops[2];
    uint32_t work[16];
    uint64_t counts[3];
    return (int)ligkern_compile(instructions, 4, NULL, 0, entries, 2, -1, -1, 10485760, 0, 0, pairs, 6, ops, 8, loops, 2, work, 16, counts, 3);
}
