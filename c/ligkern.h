/* The letter setter for a host in C: a font is compiled once, and captions are set by it one after the other. Beside that there are font files, repair,
   packing, unpacking, reach, kerns and questions about a table. c/build proves the calls and writes target/staticlib/libligkern.a, for x86-64 Linux to
   link. c/captions.c is an example. The column text has a header of its own, c/ligcols.h. R29 and its like are rules of docs/RULES.md, where each is said
   exactly.

   WHAT A HOST DOES

   1. Read a font file: ligkern_deserialize. Its entries are packed.
   2. Ask what repair would warn of, with the packed entries: ligkern_ask_repair. Read the warnings, and hand them over to have the font repaired:
      ligkern_commit_repair.
   3. Unpack each entry, in the repaired instructions: ligkern_unpack_entrypoint. Leave out an entry that a warning 2 names.
   4. Compile the repaired instructions with the unpacked entries and the repaired left entry: ligkern_compile.
   5. Look at the third of the counts. A FONT WITH LOOPS IS NOT TO GO ON AIR: have it put right. The setter does not hang on it, but sets a pair
      that never ends as if it had no rule.
   6. Set words, by the call that fits the host:
      one caption, or a table that may have been written to since: ligkern_set_word, which checks the whole table at each call;
      captions over one table: ligkern_check_table once, then ligkern_set_checked_word, which costs by its letters;
      the same and 10 KiB for an index: ligkern_fill_index once, then ligkern_set_checked_word_indexed, the quickest;
      item by item: ligkern_begin, then ligkern_step, or ligkern_step_indexed by an index.
   A font whose entries are not packed, and which needs no repair, begins with 4. Another program is put into a font file, with unpacked entries, by
   ligkern_replace_lig_kern_program. As a property list, for people to read and change, it is written by ligkern_display.
   ligkern_replace_lig_kern_program. A property list, written by people or by TFtoPL, is read by ligkern_from_pl_source_code: its entries are not packed.

   WHAT GOES IN

   A character of a font is 0 to 255. A letter of a word, and an override, is 0 to 1,114,111, surrogates (55,296 to 57,343) aside: above 255 it pairs with
   nothing and is set as itself (R371, R372). A boundary character, a left entry or an override of -1 is absent.

   The instructions of a left character, or of the left boundary, are a chain: it starts at its entry and goes on by next. The first one on it that is for the
   right character and is no redirect is the rule of the pair. An instruction is four numbers (R25 to R31):
     next      -1 where the chain ends; else 0 to 255, how many instructions are skipped to the next one of the chain
     right     the character to the right for which it is meant
     kind      0 kern value, 1 kern index, 2 ligature, 3 redirect
     operand   of a kern value: the kern, any number
               of a kern index: a place in the kerns, 0 to 65,535; past their end it is a kern of zero
               of a ligature: 256 * op byte + the character that is put in; the op byte is 0 to 127
               of a redirect: the index to which it leads, 0 to 65,535, and 65,536 more if its flag is set, which is passed on and never looked at

   What an op byte does with the pair A B, where X is the character that is put in between (R42 to R45):
      0  LIG       A and B go; X is looked up with what follows
      1  LIG/      A goes; the pair X B is looked up
      2  /LIG      B goes; the pair A X is looked up
      3  /LIG/     both stay; the pair A X is looked up
      5  LIG/>     A goes, X is done; B is looked up with what follows
      6  /LIG>     B goes, A is done; X is looked up with what follows
      7  /LIG/>    both stay, A is done; the pair X B is looked up
     11  /LIG/>>   both stay, A and X are done; B is looked up with what follows
   Every other one does what 0 does.

   Units. A kern is a part of the design size, times 1,048,576: 131,072 is an eighth. The design size is in points, times 1,048,576: 10,485,760 is ten
   points. A scaled kern, as ops and items have it, is in points, times 65,536: an eighth of ten points is 81,920.
   A font is set at another size by a size in points, times 65,536, or by a magnification in thousandths of the design size. Lend 0 for the one that is not
   asked for, and 0 for both at the design size. A size of 786,432 is twelve points, and so is a magnification of 1,200 of ten points.

   An entry is two numbers: a character, and where its chain starts. No character has two. The left entry is where the left boundary's chain starts.
     unpacked  0 to 65,535, the first instruction of the chain. All calls but two take these, and the left entry is always such a one.
               Compiling and writing a font file are among them: unpack entries that were read, by ligkern_unpack_entrypoint, one by one
     packed    0 to 255, as a font file has it: if a redirect stands there, what it leads to is meant. Repair and unpacking take these. Reading a font
               file gives these: lend them to repair as they are
   No call notices that a packed entry was lent for an unpacked one: the redirect is then passed over, and where it leads is not looked at (R59, R60).
   Take the instructions -1 0 3 65537 and -1 98 2 200 with the entry (97, 0), as a font file has it. They compile to no pair, and the ligature 200 is lost.
   Unpacked, the entry is (97, 1).
   A redirect on a chain does nothing, as in TeX; only its next is followed. So a left entry at which a redirect stands can be lent as it is.

   Passthrough is one byte an instruction. Not 0 marks a redirect that is no rule: it only holds an entry's target, the boundary character or the left entry
   for a font file. Reach tells it from an instruction that is never used. Repair does not warn of where it leads, if no chain comes to it. Unpacking an
   entry marks its redirect. Lend zeros, but mark the first and the last instruction of a font file, if they hold the boundary character and the left entry.

   WHAT IS RETURNED

   0 where the call is taken, else the number of a refusal; each call names its own. Where several hold, the lowest is returned, but by four calls, which say
   so.
      1  the numbers of the instructions are not in fours, or there are more than 32,767 instructions
      2  four of these numbers are no instruction: one is out of range
      3  there are more than 32,767 kerns
      4  a character or an entry is out of range, an override is below -1, a character has two entries, entries are not in twos, or passthrough is not one
         byte an instruction
      5  the design size is below zero
      6  the word has more than 65,535 letters
      7  the table is not as ligkern_compile wrote it, the state is none or points outside, or the index says a wrong place
      8  an entry to be unpacked is past the instructions
      9  an entry to be unpacked is at a redirect that leads past them
     10  packing would take 256 redirects; 255 are possible
     11  an entry is above 65,535 once packing has moved it
     12  more pairs have a rule than work, or the pair table, has room for: lend more
     13  a kern that some pair uses is below -16,777,216 or above 16,777,215
     14  the ops have too little room: lend more. Above 2,147,483,647 ops no room is enough
     15  another list that is written has too little room: lend more
     16  of c/ligcols.h alone: a line of a column text can't be read, is out of place or passes a limit
     17  a font file is none: a length is above 32,767, the lengths do not fit together, or it has not exactly 4 * lf bytes
     18  a font can't be written into a file: it has a boundary character without an instruction, a redirect, a next above 127, or a kern index, an entry or
         a left entry past its list; or an entry for a character that the file has not; or the file would have more than 32,767 words
     19  a size, asked for or made by magnifying, is not 1 to 134,217,727, a magnification is not 1 to 32,768, or both are asked for. 15 comes before it
     20  a letter of the word, or the override, is none: a surrogate, or above 1,114,111. 15 of a list of fixed size comes before it, that of the items after it
     21  a chip's command is unknown
     22  a chip's command comes out of turn, an add meets a full word, or a begin meets its caller's count at 4,294,967,295
     24  a font can't be written as a property list: it has a redirect, an op byte that is none of the eight, a next above 127 or past the last
         instruction, a kern of -2,147,483,648, or a kern index, an entry or a left entry past its list. 15 of values comes before it, that of the text after it
     23  a text is no property list of BOUNDARYCHAR and LIGTABLE, a LABEL or SKIP leads past the last step, or PLtoTF reports an error reading it.
         15 of edges or counts comes before it, 1 and 15 of instructions or entries only hold of a text that is read
     25  the warnings handed over are not those that asking tells of the font as it is lent: ask again
     26  a chip's begin has a caller above 7
     27  a short word has more than four letters, or one outside the set. 15 of its letters and values comes before it
     28  it is asked which instruction altered a word, of a font that has a loop
   Zeros stand after what is written, and a refusal leaves zeros in every list that the call writes. A step alone leaves the rest of its state list as it is,
   and a refused step all of it; so do a chip's commands with its block and its list, and the calls that take a run.

   LISTS

   A list is a pointer and its length, in elements and not in bytes. A pointer must be valid for its length and not null, also where that is 0. A list that
   is written overlaps no other list, and nobody else writes to a list during a call. A list `values` takes the numbers of an answer: one, where no more are
   named. The calls allocate nothing and keep no pointer. They use nothing but their arguments and their stack, so that any number of threads may call them
   at once.

   How many numbers are always enough:
     pairs     6 * LIGKERN_MOST_PAIRS, or 6 for each pair that has a rule, whether it ends or not
     work      16 * LIGKERN_MOST_PAIRS, or 16 for each such pair
     loops     2 * LIGKERN_MOST_PAIRS, or 2 for each loop
     ops       2 for each op. A kern makes at most two ops of a pair, LIG none, another ligature any number: after 14 lend twice as many
     items     6 * ((n + 1) * m + 1) for a word of n letters, where m is the greatest count of ops of a pair, its sixth number, and at least 1.
               Each letter, and the word's end, brings the ops of one pair, or one item; one ligature may follow at the end.
               Or lend fewer, and after 15 twice as many
     warnings  4 * (1 + e + 4 * i + LIGKERN_MOST_PAIRS) for e entries and i instructions. found: as many as are handed over
     of a property list: 48 bytes for each instruction, 18 for each entry, and 60
     of a font file: 4 * LIGKERN_MOST_WORDS for its instructions, LIGKERN_MOST_WORDS for its kerns, 512 for its entries, and 4 * LIGKERN_MOST_WORDS bytes
               for a new one

   STACK

   How many bytes a call takes below its caller's frame, measured by tools/stack/run. No proof speaks of this.
     ligkern_compile                          3,304     ligkern_all_pairs_with_replacements       72
     ligkern_set_word                         1,177     ligkern_table_is_seven_bit_safe          104
     ligkern_check_table                         56     ligkern_program_is_seven_bit_safe        328
     ligkern_set_checked_word                 1,065     ligkern_instructions_for_entrypoint       88
     ligkern_fill_index                          56     ligkern_unpack_entrypoint                 72
     ligkern_set_word_indexed                 1,289     ligkern_reachable_iter                32,872
     ligkern_set_checked_word_indexed         1,273     ligkern_pack_entrypoints               1,144
     ligkern_begin                              376     ligkern_pack_kerns                        88
     ligkern_step                               745     ligkern_unpack_kerns                 131,176
     ligkern_step_indexed                     1,769     ligkern_ask_repair                   595,280
     ligkern_ask_font                           280     ligkern_commit_repair                595,312
     ligkern_start_word                         472     ligkern_deserialize                      412
     ligkern_font_step                        1,801     ligkern_replace_lig_kern_program   1,318,312
     ligkern_has_replacement                     40     ligkern_to_scaled                         56
   Not measured: ligkern_chip, ligkern_next_word, ligkern_count_words, ligkern_blamed_instruction, ligkern_display, ligkern_from_pl_source_code.
   Give a thread 16 KiB more, and what the host itself takes. Repair crashes in a thread of 512 KiB; 640 KiB are enough. Writing a font file takes about
   1.3 MB, for the packed program and the shared kerns: it crashes in a thread of 1 MiB, and 1,536 KiB are enough. */
#ifndef LIGKERN_H
#define LIGKERN_H

#include <stdbool.h>
#include <stddef.h>
#include <stdint.h>

/* How many pairs a font has at most: 257 lefts, the left boundary among them, with 256 rights. */
#define LIGKERN_MOST_PAIRS 65792

/* How many numbers an index has. */
#define LIGKERN_INDEX 1285

/* How many numbers a chip has. */
#define LIGKERN_CHIP 91

/* How many numbers a run has that knows its font. */
#define LIGKERN_FONT_RUN 12

/* How many words of four bytes a font file has at most. */
#define LIGKERN_MOST_WORDS 32767

#ifdef __cplusplus
extern "C" {
#endif

/* ---- a font compiled, captions set */

/* Compiles a font. Takes unpacked entries. Writes
     pairs    six numbers for each pair that ends: left (-1 the left boundary), right, code of its last item, 1 if that is a ligature,
              first op, count of ops
     ops      two numbers each: 0 character, 1 ligature, 2 scaled kern; then the code, or the kern
     loops    left and right of one pair of each cycle that never ends
     counts   three numbers: pairs, ops, loops
   and leaves work all zeros. Kerns are scaled at the design size, or where one of them is not 0 at the size or by the magnification. Without loops every
   word is proved to be set as the font's instructions read one by one. 1 to 5, 12, 13, 14, 15, 19. */
uint32_t ligkern_compile(const int32_t *instructions, size_t instructions_length, const int32_t *kerns, size_t kerns_length, const int32_t *entries,
                         size_t entries_length, int32_t boundary, int32_t left_entry, int32_t design_size, int32_t size, int32_t magnification, int32_t *pairs,
                         size_t pairs_length, int32_t *ops, size_t ops_length, int32_t *loops, size_t loops_length, uint32_t *work, size_t work_length,
                         uint64_t *counts, size_t counts_length);

/* One kern in scaled points, as compiling scales it. Writes one number. 5, 13, 15, 19. */
uint32_t ligkern_to_scaled(int32_t kern, int32_t design_size, int32_t size, int32_t magnification, int32_t *scaled, size_t scaled_length);

/* Sets a word whole. Lend the pairs and the ops that were written, without the zeros after them: 6 * counts[0] and 2 * counts[1] numbers. Lend the boundary
   character of the font; the override, at the word's end, takes its place. Writes six numbers an item; count: how many items. 4, 6, 7, 20, 15.
   An item is kind (0 character, 1 ligature, 2 kern), value, start and length of its original in the word, left flag, right flag. A flag is 1 if the item
   took in that boundary. */
uint32_t ligkern_set_word(const int32_t *pairs, size_t pairs_length, const int32_t *ops, size_t ops_length, int32_t boundary, const uint32_t *word,
                          size_t word_length, bool disable_left_boundary, int32_t right_boundary_override, int32_t *items, size_t items_length,
                          uint64_t *count, size_t count_length);

/* The form of a table: 0, or 7 where ligkern_begin would find it wrong. Check a table once that was lent to no call but reading ones since: what ligkern_compile
   wrote is taken (R411). 7. */
uint32_t ligkern_check_table(const int32_t *pairs, size_t pairs_length, const int32_t *ops, size_t ops_length);

/* Sets a word whole over a table that was checked. On a table that ligkern_check_table takes it answers and writes what ligkern_set_word does, and does not
   read the whole table for it (R413, R415). Any other table is safe too: a step checks what it reads, and a 7 is returned where it meets what it cannot take.
   4, 6 and 20 come first, so that 20 comes before such a 7. 4, 6, 20, 7, 15; 15 of the count comes before 20. */
uint32_t ligkern_set_checked_word(const int32_t *pairs, size_t pairs_length, const int32_t *ops, size_t ops_length, int32_t boundary, const uint32_t *word,
                                  size_t word_length, bool disable_left_boundary, int32_t right_boundary_override, int32_t *items, size_t items_length,
                                  uint64_t *count, size_t count_length);

/* The index of a table, LIGKERN_INDEX numbers, by which a pair is found with a bit test and a count of ones. Fill it once for a table, and again when the
   table changes. It looks at the lefts and the rights of the pairs alone. 7, 15. */
uint32_t ligkern_fill_index(const int32_t *pairs, size_t pairs_length, uint64_t *index, size_t index_length);

/* Sets a word whole, and finds pairs by an index. By the one that ligkern_fill_index wrote for these pairs it answers and writes what ligkern_set_word
   does. 4, 6, 7, 20, 15.
   Any other index is taken too (R139, R140). It is asked only where a step begins with a character left of a letter, and nothing is pending. There a pair
   that it does not name is set as if it had no rule, and a pair for which it says a wrong place is 7. Elsewhere pairs are found as ligkern_set_word finds
   them: in the first step of a word with its left boundary, with a ligature on the left, and at the word's end. Take the pairs 102 105 200 1 0 0 and an
   index of zeros. The word 102 105 is then the ligature 200 with the left boundary, and two characters without.
   By such an index, after what ligkern_begin refuses, the first number that is met is returned, not the lowest. A wrong place later in the word is 7 with
   room for ten items, and 15 with room for one. */
uint32_t ligkern_set_word_indexed(const uint64_t *index, size_t index_length, const int32_t *pairs, size_t pairs_length, const int32_t *ops, size_t ops_length,
                                  int32_t boundary, const uint32_t *word, size_t word_length, bool disable_left_boundary, int32_t right_boundary_override,
                                  int32_t *items, size_t items_length, uint64_t *count, size_t count_length);

/* The same over a table that was checked (R414): what ligkern_set_word_indexed does by the same index, on a table that ligkern_check_table takes. On any other
   table it is as safe as ligkern_set_checked_word. 4, 6, 20, 7, 15; 15 of the count comes before 20. */
uint32_t ligkern_set_checked_word_indexed(const uint64_t *index, size_t index_length, const int32_t *pairs, size_t pairs_length, const int32_t *ops,
                                          size_t ops_length, int32_t boundary, const uint32_t *word, size_t word_length, bool disable_left_boundary,
                                          int32_t right_boundary_override, int32_t *items, size_t items_length, uint64_t *count, size_t count_length);

/* A fresh run over a word: nine numbers of state. The table is checked whole. A list shorter than nine is 15. 4, 6, 7, 15, 20. */
uint32_t ligkern_begin(const int32_t *pairs, size_t pairs_length, const int32_t *ops, size_t ops_length, int32_t boundary, const uint32_t *word,
                       size_t word_length, bool disable_left_boundary, int32_t right_boundary_override, uint64_t *state, size_t state_length);

/* One step of a run, with all that begin was lent and the state that the last call left. Writes 1 and the six numbers of an item, or seven zeros at the
   end. The next state stands in place of the last. A list of exactly seven numbers for the item is the quickest. 4, 6, 7, 15, 20.
   A step looks only at what it reads, and returns the first number that it meets, not the lowest. First come 4 and 6 of its arguments, 7 of the
   state and 20 of its right item. Then come 20 of a letter and 7 of a pair or an op, as they are read. 15 of the item comes last, but before 20. A state list
   shorter than nine is 7 here, not 15.
   The word may be parted before the next item if state[3], the count of ops still to be given, is 0, and state[0] is neither 2 nor 3. This is the kind of
   the next left: 0 boundary, 1 character, 2 ligature, 3 last ligature, 4 none. */
uint32_t ligkern_step(const int32_t *pairs, size_t pairs_length, const int32_t *ops, size_t ops_length, int32_t boundary, const uint32_t *word,
                      size_t word_length, bool disable_left_boundary, int32_t right_boundary_override, uint64_t *state, size_t state_length, int32_t *item,
                      size_t item_length);

/* One step of a run by an index (R416). By the one that ligkern_fill_index wrote for these pairs it does what ligkern_step does, from every state. Any other
   index is taken too, as by ligkern_set_word_indexed: where it says a wrong place the step is 7. 4, 6, 7, 15, 20. */
uint32_t ligkern_step_indexed(const uint64_t *index, size_t index_length, const int32_t *pairs, size_t pairs_length, const int32_t *ops, size_t ops_length,
                              int32_t boundary, const uint32_t *word, size_t word_length, bool disable_left_boundary, int32_t right_boundary_override,
                              uint64_t *state, size_t state_length, int32_t *item, size_t item_length);

/* ---- the caption chip */

/* One command of a chip that is driven through a block of 16 bytes. A chip is LIGKERN_CHIP numbers, all zeros before its first command; lend the list that
   the last call left, with one table and boundary character. Words are set with the left boundary and no override. The block's bytes (R392 to R395, R421, R422):
      0        read: the command. 1 begin a word, 2 add the letter in byte 1, 3 end the word, 4 take the item that is shown
      1        read: at begin its caller, 0 to 7; at add the letter
      2        written: the status. 1 item ready, 2 word open, 4 interrupt
      3        read: the mask. A set bit 0 or 1 keeps the status bit 0 or 1 from setting the interrupt
      4 to 7   written: how many words the caller of the last begin ended, highest byte first
      8 to 15  written: the item's kind, left flag, right flag and original's length, then its value, highest byte first, a kern below zero in two's
               complement; zeros where there is none
   Bytes past 16 stay. An item is shown from the end of its word until it is taken, the next one after it. A word has at most 64 letters; begin is taken when
   no word is open and every item was taken, and checks the table whole. A refused command changes neither block nor chip.
   The list: 1 if a word is open, its length, seven of the item as ligkern_step writes it, with a value below zero as 32 bits, nine of the state, 64 letters,
   of which those past the length are not read, the words that each caller ended (82 caller 0's, 83 caller 1's, up to 89 caller 7's), and at 90 the caller of
   the last begin. 4, 7, 15, 21, 22, 26. */
uint32_t ligkern_chip(const int32_t *pairs, size_t pairs_length, const int32_t *ops, size_t ops_length, int32_t boundary, uint8_t *block, size_t block_length,
                      uint64_t *chip, size_t chip_length);

/* ---- change of font during a caption */

/* The host numbers its fonts as it likes. A run is LIGKERN_FONT_RUN numbers: the nine of a state, the number of the font in force, 1 where another is asked
   for, and that one's number, which is not read where the flag is 0, and is written 0. All zeros are a run in font 0 before its first word; for another font
   put its number into run[9]. Lend the list that the last call left. Numbers that are no run's are 7: fewer than twelve, a flag over 1, a font over 32 bits,
   nine numbers that are no state. A refusal leaves the run as it was, with what it asks for.

   Asks for the font of this number: its table and its boundary character. Both are checked. It stands in place of what was asked for before. 4, 7. */
uint32_t ligkern_ask_font(uint32_t number, const int32_t *pairs, size_t pairs_length, const int32_t *ops, size_t ops_length, int32_t boundary, uint64_t *run,
                          size_t run_length);

/* Starts a word, as ligkern_begin does: in the font asked for, which is then in force; else in the one in force. Lend both, that in force first; where one is
   asked for, neither table nor boundary character of the one in force is read, else neither of the second. A word that was not at its end is over.
   4, 6, 7, 20. */
uint32_t ligkern_start_word(const int32_t *pairs, size_t pairs_length, const int32_t *ops, size_t ops_length, int32_t boundary, const int32_t *asked_pairs,
                            size_t asked_pairs_length, const int32_t *asked_ops, size_t asked_ops_length, int32_t asked_boundary, const uint32_t *word,
                            size_t word_length, bool disable_left_boundary, int32_t right_boundary_override, uint64_t *run, size_t run_length);

/* One step, as ligkern_step makes it, in the font in force; lend the word and the options that the word was started with. Where a font is asked for, the step
   goes on in it from the first state at which no op and no ligature is pending and the next left has no pair with what follows; run[10] is then 0. Originals
   still point into the whole word. With nothing asked for the second font is not read; else both boundary characters are checked. 4, 6, 7, 15, 20. */
uint32_t ligkern_font_step(const int32_t *pairs, size_t pairs_length, const int32_t *ops, size_t ops_length, int32_t boundary, const int32_t *asked_pairs,
                           size_t asked_pairs_length, const int32_t *asked_ops, size_t asked_ops_length, int32_t asked_boundary, const uint32_t *word,
                           size_t word_length, bool disable_left_boundary, int32_t right_boundary_override, uint64_t *run, size_t run_length, int32_t *item,
                           size_t item_length);

/* ---- every short word */

/* The word after a word of at most four letters of a set, in `next`, four numbers, and its items as ligkern_set_word writes them, with the left boundary and
   no override. The set is 256 bits, those of the characters from 0, 64, 128 and 192 on, lowest first. Start with the empty word, and hand over the next word,
   next[0] to next[values[1] - 1], again and again: each other word of the set comes exactly once, shorter first and then by codes, and then the end.
   values: 1, or at the end 0; the next word's length; how many items. Handed the empty word it checks the table whole, as ligkern_begin does; handed any
   other, as much of it as the steps read. 4, 7, 15, 27. */
uint32_t ligkern_next_word(uint64_t from_0, uint64_t from_64, uint64_t from_128, uint64_t from_192, const int32_t *pairs, size_t pairs_length,
                           const int32_t *ops, size_t ops_length, int32_t boundary, const uint32_t *word, size_t word_length, uint32_t *next,
                           size_t next_length, int32_t *items, size_t items_length, uint64_t *values, size_t values_length);

/* values: how many letters a set has, and how many words of at most four of them there are, the empty word too. 15. */
uint32_t ligkern_count_words(uint64_t from_0, uint64_t from_64, uint64_t from_128, uint64_t from_192, uint64_t *values, size_t values_length);

/* Which instruction did that? The lowest instruction whose removal alone alters the items of a word, originals and flags included, or brings a loop. A removed
   instruction matches no character and keeps its next. values: 1 and the instruction's index, or 0 and 0 where no single removal alters anything. The six lists from
   pairs to work are work, and left zero: a table for the font, one for a removal (the smaller of each kind counts), edited, which takes as many numbers as there are
   instruction numbers, and compile's work. 1 to 6, 12 to 15, 19, 20, and 28 where the font has a loop; 13 or 14 of a removal, met before the answer. 15 of edited or of
   values comes before 19. */
uint32_t ligkern_blamed_instruction(const int32_t *instructions, size_t instructions_length, const int32_t *kerns, size_t kerns_length, const int32_t *entries,
                                    size_t entries_length, int32_t boundary, int32_t left_entry, int32_t design_size, int32_t size, int32_t magnification,
                                    const uint32_t *word, size_t word_length, bool disable_left_boundary, int32_t right_boundary_override, int32_t *pairs,
                                    size_t pairs_length, int32_t *ops, size_t ops_length, int32_t *pairs_without, size_t pairs_without_length, int32_t *ops_without,
                                    size_t ops_without_length, int32_t *edited, size_t edited_length, uint32_t *work, size_t work_length, uint64_t *values,
                                    size_t values_length);

/* ---- questions about a table */

/* values: 1 where a left (-1 the left boundary) and a right (-1 the boundary character) have a pair, else 0. 4, 7, 15.
   The form of the table is not checked, but for pairs in sixes: on other pairs than ligkern_compile wrote, the answer means nothing. */
uint32_t ligkern_has_replacement(const int32_t *pairs, size_t pairs_length, int32_t boundary, int32_t left, int32_t right, uint64_t *values,
                                 size_t values_length);

/* Writes two numbers a pair, its left and its right, in order; values: how many pairs. 7, 15. */
uint32_t ligkern_all_pairs_with_replacements(const int32_t *pairs, size_t pairs_length, int32_t *out, size_t out_length, uint64_t *values,
                                             size_t values_length);

/* values: 1 where every pair of characters below 128, the left boundary among them, becomes characters below 128, else 0. 7, 15. */
uint32_t ligkern_table_is_seven_bit_safe(const int32_t *pairs, size_t pairs_length, const int32_t *ops, size_t ops_length, uint64_t *values,
                                         size_t values_length);

/* ---- programs */

/* values: 1 where no ligature for two characters below 128 puts in one above 127, else 0. Takes unpacked entries. The left boundary's chain and redirects
   do not count (R128, R129). 1, 2, 4, 15. */
uint32_t ligkern_program_is_seven_bit_safe(const int32_t *instructions, size_t instructions_length, const int32_t *entries, size_t entries_length,
                                           uint64_t *values, size_t values_length);

/* Writes the indices of the chain from an unpacked entry, at most one an instruction; values: how many. 1, 2, 4, 15. */
uint32_t ligkern_instructions_for_entrypoint(const int32_t *instructions, size_t instructions_length, int32_t entry, uint32_t *out, size_t out_length,
                                             uint64_t *values, size_t values_length);

/* Unpacks a packed entry, 0 to 255; values: the unpacked one. Writes the passthrough after it, one byte an instruction, 0 or 1. 1, 2, 4, 8, 9, 15. */
uint32_t ligkern_unpack_entrypoint(const int32_t *instructions, size_t instructions_length, int32_t entry, const uint8_t *passthrough,
                                   size_t passthrough_length, uint8_t *out, size_t out_length, uint64_t *values, size_t values_length);

/* Says which instructions are on a chain. Takes unpacked entries. Writes two numbers an instruction: its state (0 unreachable, 1 reachable, 2 passthrough),
   and how many reachable ones it skips, or -1 (R151 to R153); values: how many instructions. A left entry that is the last index makes nothing reachable.
   1, 2, 4, 15. */
uint32_t ligkern_reachable_iter(const int32_t *instructions, size_t instructions_length, const int32_t *entries, size_t entries_length, int32_t left_entry,
                                const uint8_t *passthrough, size_t passthrough_length, int32_t *out, size_t out_length, uint64_t *values,
                                size_t values_length);

/* ---- programs written anew */

/* Packs unpacked entries, for a font file: what it writes is not to be compiled as it stands. Writes the instructions, with at most 255 redirects in front,
   and one behind them for the left entry: room for 256 instructions more is always enough. Writes the entries, packed, in the lent order. values: three,
   the count of instructions, how far the old ones were moved, and the count of redirects. 1, 2, 4, 10, 11, 15. */
uint32_t ligkern_pack_entrypoints(const int32_t *instructions, size_t instructions_length, const int32_t *entries, size_t entries_length, int32_t boundary,
                                  int32_t left_entry, int32_t *out, size_t out_length, int32_t *entries_out, size_t entries_out_length, uint64_t *values,
                                  size_t values_length);

/* Writes the instructions with kern values in place of kern indices, 0 past the kerns; values: how many instructions. 1, 2, 3, 15. */
uint32_t ligkern_pack_kerns(const int32_t *instructions, size_t instructions_length, const int32_t *kerns, size_t kerns_length, int32_t *out,
                            size_t out_length, uint64_t *values, size_t values_length);

/* Writes the instructions with kern indices in place of kern values, and a list of kerns that has each value once; values: how many kerns, at most one an
   instruction. 1, 2, 15.
   A kern index that was there before stays, and the new list has another kern at its place: pack the kerns first. */
uint32_t ligkern_unpack_kerns(const int32_t *instructions, size_t instructions_length, int32_t *out, size_t out_length, int32_t *kerns, size_t kerns_length,
                              uint64_t *values, size_t values_length);

/* ---- repair */

/* Asks what repair would warn of. Takes packed entries. The existing characters are 256 bits: those from 0, 64, 128 and 192 on, the lowest bit first.
   `replacement` takes the place of a character that does not exist, and should exist itself. Writes the warnings, four numbers each; values: how many. The
   font is not changed. Work is as in compiling. 1 to 4, 12, 15.
   A warning is its kind, and then what is wrong and what committing does about it:
      1  0, 0, 0           the left entry is past the instructions; it is made -1
      2  character, 0, 0   its entry does not unpack. Repair writes no entries: leave this one out of what is compiled
      3  index, 0, 0       the next of a reachable instruction leads to the end or past it; it is made -1
      4  index, old, new   the right character of a ligature neither exists nor is the boundary character; it is replaced
      5  index, old, new   the same of a kern
      6  index, old, new   a ligature puts in a character that does not exist; it is replaced
      7  index, 0, 0       a kern index is past the kerns; it is made a kern value of 0
      8  index, 0, 0       the op byte of a ligature is none of the eight; it is made 0
      9  index, 0, 0       a redirect leads past the instructions; nothing is changed
     10  left, right, 0    a loop, left -1 the left boundary. Nothing is changed, and the font is not to go on air */
uint32_t ligkern_ask_repair(const int32_t *instructions, size_t instructions_length, const int32_t *kerns, size_t kerns_length, const int32_t *entries,
                            size_t entries_length, int32_t boundary, int32_t left_entry, int32_t replacement, uint64_t from_0, uint64_t from_64,
                            uint64_t from_128, uint64_t from_192, const uint8_t *passthrough, size_t passthrough_length, int32_t *warnings,
                            size_t warnings_length, uint32_t *work, size_t work_length, uint64_t *values, size_t values_length);

/* Repairs a font. The warnings are those that were asked for, without the zeros behind them: four numbers for each. The font is repaired if asking would
   tell the same of it now, number for number; else 25. The rest is lent as in asking. Writes the repaired instructions, their passthrough, and in `left`
   the repaired left entry. `found` is work, with a place for each number of the warnings, and is left zero. 1 to 4, 12, 15, 25. */
uint32_t ligkern_commit_repair(const int32_t *warnings, size_t warnings_length, const int32_t *instructions, size_t instructions_length, const int32_t *kerns,
                               size_t kerns_length, const int32_t *entries, size_t entries_length, int32_t boundary, int32_t left_entry, int32_t replacement,
                               uint64_t from_0, uint64_t from_64, uint64_t from_128, uint64_t from_192, const uint8_t *passthrough,
                               size_t passthrough_length, int32_t *fixed, size_t fixed_length, uint8_t *through, size_t through_length, int32_t *found,
                               size_t found_length, uint32_t *work, size_t work_length, int32_t *left, size_t left_length);

/* ---- font files (TFM) */

/* Reads a font file. Writes the instructions, redirects with their flag unset, the kerns, and the entries: packed, by ascending character, none for a
   character of width index 0. edges: two numbers, the boundary character and the left entry, -1 for none. counts: three, how many instructions, kerns and
   entries, in records and not in numbers. Nothing but the lengths is looked at: whether an index, an entry or a target is past its list, repair says.
   Some files have bytes after the last word, which is 17: lend the first 4 * lf bytes, where lf is 256 * file[0] + file[1].
   15 of edges and counts comes first, then 17, then 15 of the other lists. 15, 17. */
uint32_t ligkern_deserialize(const uint8_t *file, size_t file_length, int32_t *instructions, size_t instructions_length, int32_t *kerns, size_t kerns_length,
                             int32_t *entries, size_t entries_length, int32_t *edges, size_t edges_length, uint64_t *counts, size_t counts_length);

/* Writes a font file: the old one with another program. Takes unpacked entries, which it packs. Kern indices become values, and each value then stands once
   in the file's kerns. The old file's lengths but lf, nl and nk, its header, dimensions, recipes and parameters stay. values: how many bytes.
   It makes redirects of its own, and a program that has one is 18. So leave out those of a program that was read: all that stand in front, and the last
   instruction if there is a left entry. Take the count of those in front away from each unpacked entry and from the left entry.
   A character that has no entry in the list has none in the file either.
   15 of values comes before 17, and 15 of out after 18. 1 to 4, 10, 11, 15, 17, 18. */
uint32_t ligkern_replace_lig_kern_program(const uint8_t *old, size_t old_length, const int32_t *instructions, size_t instructions_length,
                                          const int32_t *kerns, size_t kerns_length, const int32_t *entries, size_t entries_length, int32_t boundary,
                                          int32_t left_entry, uint8_t *out, size_t out_length, uint64_t *values, size_t values_length);

/* ---- property lists (PL) */

/* Writes a font as TFtoPL does: the list BOUNDARYCHAR where there is a boundary character, and LIGTABLE where there are instructions, reached or not. Takes
   unpacked entries. Characters are in octal, and a kern has as few decimals as PLtoTF reads back to it. text: bytes, a line feed after each line and no
   zero among them. values: how many bytes. 15 of values comes before 24, and 15 of text after it. 1 to 4, 15, 24. */
uint32_t ligkern_display(const int32_t *instructions, size_t instructions_length, const int32_t *kerns, size_t kerns_length, const int32_t *entries,
                         size_t entries_length, int32_t boundary, int32_t left_entry, uint8_t *text, size_t text_length, uint64_t *values,
                         size_t values_length);

/* Reads the lists BOUNDARYCHAR and LIGTABLE as PLtoTF does; the text may have comments, and nothing else. Entries are unpacked, by ascending character; kerns
   are shared: an instruction has the index of its kern, and each value stands once in kerns. A last step without STOP or SKIP ends its chain. edges: boundary
   character, left entry, -1 absent. counts: instructions, kerns, entries. 15 of edges and counts comes before 23, 15 of instructions, kerns and entries after
   it. As many numbers as the text has bytes are always enough for the instructions, a quarter of that for the kerns, and 512 for
   the entries. It takes 655,623 bytes of stack, measured once; a thread of 768 KiB was not tried. 1, 15, 23. */
uint32_t ligkern_from_pl_source_code(const uint8_t *text, size_t text_length, int32_t *instructions, size_t instructions_length, int32_t *kerns,
                                     size_t kerns_length, int32_t *entries, size_t entries_length, int32_t *edges, size_t edges_length, uint64_t *counts,
                                     size_t counts_length);

#ifdef __cplusplus
}
#endif

#endif
