/* The letter setter for a host in C: two functions. Link target/staticlib/libligkern.a, which c/build writes for x86-64 Linux. c/host.c is an example. */
#ifndef LIGCOLS_H
#define LIGCOLS_H

#include <stddef.h>
#include <stdint.h>

/* The longest text that is read, and the longest reply that is written, in bytes. */
#define LIGCOLS_TEXT 65536
#define LIGCOLS_REPLY 65536

#ifdef __cplusplus
extern "C" {
#endif

/* Answers a column text. examples/README.md explains texts and replies line by line; docs/RULES.md has the rules (R185 to R213).

   text          the bytes of the text. They are only read. Lines end with a line feed; no zero byte ends the text.
   text_length   how many bytes it has. A text of more than LIGCOLS_TEXT is refused with 16.
   reply         where the bytes of the reply go. No zero byte is added to end them.
   reply_length  how many bytes may be written there. LIGCOLS_REPLY are enough for every reply; with fewer, a reply that does not fit is refused with 15.

   Returns the length of the reply, 0 to 65,536, with zeros after it up to reply_length. The same text and lengths give the same answer at every call.
   A line X in the reply is a loop: that font is not to go on air.

   Where the text is refused, it returns minus the number of the refusal, with zeros in all of reply:
      2  a line I is no instruction: one of its numbers is out of range
      4  a letter is below 0, the boundary character or an entry is out of range, or a letter has two lines E
      5  the design size is below zero
     12  more than 512 pairs have a rule
     13  a kern that some pair uses is below -16,777,216 or above 16,777,215
     14  the pairs have more than 2,048 ops
     15  there are more than 64 loops, or the reply has too little room
     16  a line can't be read, is out of place or passes a limit, or D is missing
     20  a letter is none: a surrogate, or above 1,114,111. 15 of the lines P, O and X comes before it, that of W and T after it
   Where several hold, the lowest is returned, but 16 comes before all, and 20 before a 15 of the lines W and T.

   Who owns what: both buffers are the caller's. Nothing is allocated, and no pointer is kept after the return. Both pointers must be valid for their lengths
   and not null, also where a length is 0. The two buffers must not overlap, and nobody may write to either during the call.

   Threads: the function uses nothing but its arguments and its own stack, and has no state between calls. It calls nothing but the C library's memset and
   memcpy. So any number of threads may call it at once, each with a reply of its own; they may share a text.

   Stack, in bytes, measured by tools/stack/run:
     ligcols          118,985
     ligcols_convert   35,368
   Give a thread that calls one of them 256 KiB. The function always returns and never ends the process, but for a stack that is too small, of which no proof speaks. */
int32_t ligcols(const uint8_t *text, size_t text_length, uint8_t *reply, size_t reply_length);

/* Writes a column text anew without kern values in its instructions (kind 0): each becomes an index (kind 1) to the first line K with that value, or to a line K
   that is added before W, or last. So does an index past the lines K, which means a kern of zero. All else stands as it stood. The new text sets every word as the
   old one does. docs/RULES.md has the rules (R461 to R467).

   text, text_length   as for ligcols.
   out                 where the bytes of the new text go. No zero byte is added to end them.
   out_length          how many bytes may be written there. LIGCOLS_TEXT are enough for every text.

   Returns the length of the new text, with zeros after it up to out_length. Where the text is refused, it returns minus the number, with zeros in all of out:
      2, 4, 5  as ligcols
     15  the new text has no room
     16  as ligcols; or it would have more than 512 lines K, or more than LIGCOLS_TEXT bytes
     20  as ligcols. 15 comes before it
   Where several hold, the lowest is returned, but 16 comes before all. Nothing is compiled: a text that ligcols refuses with 12, 13 or 14 is written anew, and
   refused by ligcols as before.

   Who owns what, threads, stack: as for ligcols. */
int32_t ligcols_convert(const uint8_t *text, size_t text_length, uint8_t *out, size_t out_length);

#ifdef __cplusplus
}
#endif

#endif
