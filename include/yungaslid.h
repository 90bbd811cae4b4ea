/* Yungaslid for C: rules over bench signals, translated into symbolic machines, judged on recordings, and runs checked.

   Link libyungaslid.a, which `rt lib` makes in crates/yungaslid:

       (cd crates/yungaslid && rt lib)
       cc -std=c11 -Iinclude prog.c crates/yungaslid/out/libyungaslid.a -o prog

   Nothing here allocates, keeps a pointer, or has state: each call looks at its arguments, writes to the buffer that
   the caller lends it, and answers. Calls from several threads are fine as long as no two of them write to one buffer
   and none writes to what another reads.

   Every array is a pointer and then the number of its elements. The pointer is not null, is aligned for its elements
   and points to so many of them, where the number is 0 too; and a buffer that is written to (out, cells) overlaps no
   other argument. That is all that a call asks: all other arguments may have any values, and what does not fit is
   refused.

   What each call answers and leaves is proved, for all arguments; docs/REFERENCE.md has the rules in full. */
#ifndef YUNGASLID_H
#define YUNGASLID_H

#include <stddef.h>
#include <stdint.h>

#ifdef __cplusplus
extern "C" {
#endif

/* What a call answers: a value, or a refusal.

     number   0: the call was answered, and value says what. Else the call was refused, for the cause with this number
              (below). The causes are looked for in the order in which each call names them, and before its first
              write: a refused call leaves out and cells as they were.
     place    where in the rule text a refusal 3 or 12 to 17 arose, counted in bytes from 0; YUNGASLID_NOWHERE for
              any other refusal, and where the call was answered.
     value    what the call answers; 0 where it was refused.

   The numbers:

      3   the rule wants more than 64 lines                    place: the sign, digit or name that wants line 64; of a
                                                               pair, its operator
      5   the rule names a signal that the tape does not have: the names line has more names than signals are lent
      6   too few cells
      8   the rows do not fit the tape: there is none, or there are more than 4,352; back is not below their number, or
          is below stem; or the rows from back on are not whole cycles
      9   a row has a bit at or above the number of the machine's variables
     10   no tape: signals is not 1 to 32, stem above 256, cycle not 1 to 64; masks or lost masks are not stem + cycle
          many; or one has a bit at or above signals
     12   a byte cannot stand there in the rule                place: the byte
     13   the rule text ends early                             place: its length
     14   a name that the names line does not have             place: its first letter
     15   a 33rd level of prefixes and brackets                place: the sign
     16   the rule has ended, and more follows                 place: the first byte of it
     17   the rule text has more than 4,096 bytes              place: 4,096
     18   bad names line
     20   the listing was not printed. No rule leads there: the largest listing is smaller than the page that it is
          printed to. But that the standard library's printing never gives up is not proved, so it has a number. */
struct yungaslid_answer {
    uint32_t number;
    uint64_t place;
    uint64_t value;
};

/* The place of what has none. */
#define YUNGASLID_NOWHERE UINT64_MAX

/* A truth value as a byte, in cells and as a verdict. A verdict is one of these three; in a cell every byte above 1
   means yes, so ask `cell >= YUNGASLID_YES`. */
enum { YUNGASLID_NO = 0, YUNGASLID_LOST = 1, YUNGASLID_YES = 2 };

/* The names and the rule, which every call takes:

     names    the names line: 1 to 32 different names of 1 to 8 lower-case letters, parted by one space, with no byte
              behind. Name i is signal i.
     rule     the rule text, with no spaces and no byte behind: a unit, which is
                a name, 0, 1,
                a prefix ! X Y Z F G O H and a unit,
                or a pair: ( unit, one of & | > U W S B, unit ). */

/* The tables of the rule's machine, as text: gates, variables, fairness pairs and the root, each under its heading, each
   row ended by a byte 10.

     out      the text is written to its front, as far as there is room. Bytes behind the text stay. No byte 0 is
              added.

   value: the length of the whole text in bytes, which may be more than out_length. 5,120 bytes are enough for any rule.
   Refused by: 18; 17, 12 to 16 and 3; 20. */
struct yungaslid_answer yungaslid_listing(
    const uint8_t *names, size_t names_length,
    const uint8_t *rule, size_t rule_length,
    uint8_t *out, size_t out_length);

/* The verdict of the rule on a recording with lost samples.

     signals  how many signals the recording has, 1 to 32
     stem     how many samples come once, 0 to 256
     cycle    how many samples come again and again after the stem, 1 to 64
     masks    stem + cycle masks: bit i of mask t is signal i at sample t
     lost     as many lost masks: where bit i of lost mask t is set, signal i is lost at sample t, whatever its mask
     cells    where the values of all lines go. The rule has a line for each name, digit, prefix and operator in it, and
              one more for each F, G, O, H and >; L is how many there are, P how many of the signs are Y, Z, S, B, O or
              H, and N = stem + P * cycle + cycle. Cell t * L + k gets the value of line k at sample t, for k below L
              and t below N. Cells from L * N on stay. L * N is at most 64 * 4,352.

   value: the rule's value at sample 0, one of YUNGASLID_NO, YUNGASLID_LOST, YUNGASLID_YES. Without lost samples no value
   is lost. A verdict that is not lost stays as it is, however the lost samples are filled in.
   Refused by: 18; 10; 17, 12 to 16 and 3; 5; 6. */
struct yungaslid_answer yungaslid_verdict(
    const uint8_t *names, size_t names_length,
    const uint8_t *rule, size_t rule_length,
    uint32_t signals, uint32_t stem, uint32_t cycle,
    const uint32_t *masks, size_t masks_length,
    const uint32_t *lost, size_t lost_length,
    uint8_t *cells, size_t cells_length);

/* Whether rows are an accepting run of the rule's machine on a recording with no lost samples.

     signals, stem, cycle, masks   as above
     rows     bit j of row t is variable j of the machine at position t
     back     the row that comes after the last one, so that the run is endless

   value: 1 if the run is accepting, else 0. The machine has an accepting run exactly when the rule holds at sample 0.
   Refused by: 18; 10; 17, 12 to 16 and 3; 5; 8; 9. */
struct yungaslid_answer yungaslid_check(
    const uint8_t *names, size_t names_length,
    const uint8_t *rule, size_t rule_length,
    uint32_t signals, uint32_t stem, uint32_t cycle,
    const uint32_t *masks, size_t masks_length,
    const uint64_t *rows, size_t rows_length,
    size_t back);

#ifdef __cplusplus
}
#endif

#endif
