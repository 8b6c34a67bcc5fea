/* Tamchuwe: the proved planner, judge and judge of finals for restoring radial feeders, as a static library for x86-64
 * Linux.
 *
 *     (cd crates/tamchuwe && rt check && rt lib)        (writes crates/tamchuwe/out/libtamchuwe.a)
 *     cc -Iinclude yours.c crates/tamchuwe/out/libtamchuwe.a -o yours
 *
 * What each function answers and writes is proved for every input; the contracts stand in crates/tamchuwe/src/lib.rt.
 * Not proved, because C is outside the proofs: that the caller keeps what is asked here. Each pointer leads to as
 * many bytes (or numbers) as the length or room beside it says, `count` to one size_t; a pointer may be null where
 * its length or room is 0; numbers are aligned; and what is written overlaps no other argument. The library keeps
 * nothing between calls, allocates nothing and writes only where it is said, so that threads may call it side by
 * side. Of C's library it needs memcpy and memset. 64 KiB of stack suffice (measured, not proved).
 *
 * INPUT is any bytes at all. The planner expects a network file, the judge a network file with a plan file directly
 * behind it, the judge of finals a network file with two plan files directly behind one another, or the three files
 * lent apart. All numbers in files are unsigned, two bytes unless four are named, low byte first. A record is its
 * length in bytes (the length field included), its kind, its fields:
 *     network head   8, 1, elements (1 to 64), links (0 to 96)
 *     element       10, 2, own load, capacity, flags (1 source, 2 faulty, 3 both, 0 neither)
 *     link          12, 3, two different elements, form (0 fixed, 1 open switch, 2 closed switch), cost (0 for fixed,
 *                   else 1 to 65535)
 *     wide element  14, 7, own load (four bytes), capacity (four bytes), flags: wherever an element may stand
 *     guarded       14, 8, two different elements, form (1 open switch, 2 closed switch), cost (1 to 65535), guard (the
 *       switch      number of an earlier link that is a switch): wherever a link may stand
 *     end            4, 4
 *     plan head      6, 5, steps (0 to 255)
 *     step           8, 6, link, state wanted (0 open, 1 closed: not the numbers of a link's form)
 * A network file is one head, its elements, its links, one end; a plan file one plan head, its steps, one end.
 * Elements and links are numbered from 0 in file order, steps from 1. A guarded switch has its ends at byte 4 and 6 of
 * its record, its form at 8, its cost at 10, as a link has, and its guard at 12. An accepted network file has at most
 * 2252 bytes, an accepted input of the judge at most 4302, an accepted final at most 6352 in its three files; the first
 * 8192 bytes of an input, or of each file that is lent apart, decide.
 *
 * REFUSALS. What breaks a rule is answered by the first that it breaks, with its number and a place. Rules 1 to 12 and
 * 20 are asked of each record of the whole input in turn, 20 directly behind 9, then 13, then 14 to 18 of the network,
 * in this order. The place of 1 to 12 and 20 is the offset of the record's first byte, counted from the first byte of
 * the input, in plan files too. Of files lent apart each is asked 1 to 12 and 20 and then 13, the network file first,
 * then the first plan file, then the second; 14 to 18 come behind all three. Their places count on: those of the first
 * plan file begin at the network file's length, those of the second at the length of both.
 *      1 fewer than four bytes where a record is due      8 a form above 2; of a guarded switch also form 0
 *      2 a kind that may not come here                    9 a cost that does not suit the form
 *      3 not the kind's length                           20 a guard that is not an earlier switch
 *      4 fewer bytes than the length                     10 more than 255 steps
 *      5 elements or links out of range                  11 a step's link does not exist
 *      6 flags above 3                                   12 a step's state above 1
 *      7 a link's end that does not exist, or equal ends
 *     13 a byte behind the last end record (its offset)
 *     14 at the start a part is not a tree (its lowest element)
 *     15 at the start two sound sources in a part (the lowest such source)
 *     16 at the start a fault in a part with a sound source (the lowest such fault)
 *     17 at the start an element loaded above its capacity (the lowest such)
 *     18 more than 12 operable switches (their count)
 *     19 (tamchuwe_plan alone) the buffer is shorter than the plan file (the length needed)
 *
 * TERMS (of the customer's documents 01 and 02; crates/feeding/specs/ has them as definitions).
 *     part          elements that closed links join; fixed links are always closed
 *     sound source  a source that is not faulty
 *     live          in a part with a sound source; else dark
 *     load          at a live element: its own load and all that hangs behind it, seen from the source
 *     safe          every part is a tree, none has two sound sources or a faulty element with a sound source, and no
 *                   live element is loaded above its capacity
 *     spoiled       faulty, or joined to a faulty element by fixed links alone
 *     restorable    not spoiled, and links of any form or state join it, through unspoiled elements only, to an
 *                   unspoiled source
 *     operable      a switch with at least one end that is dark and restorable at the start
 *     valid plan    steps that each operate an operable switch into the state that it has not, through safe
 *                   configurations, after which every restorable element is live
 *     cost          of a plan: for each step what its switch's record states, at each operation; and for each link that
 *                   is the guard of an operated switch twice its own cost, once, however many of its switches are
 *                   operated and how often. That a guard opens and closes again while its switch is operated is no
 *                   step: nothing is asked of it, and the guard's own guard is paid for only where a step operates the
 *                   guard
 *
 * LINES. The planner's: PLAN steps cost, then OPEN link or CLOSE link for each step, then LOAD fed dark lost; or
 * NONE, then LOAD fed dark lost. The judge's: VALID cost excess, SHORT element or BROKEN step reason. Those of a final:
 * the judge's line for each plan file, in file order. Where a rule is broken, of each of them one line and no other:
 * REFUSED number place. Numbers are in base ten, one blank stands between fields, and each line ends with one line
 * feed. What the numbers mean is said below, at the functions that answer them.
 *
 * VALUES. tamchuwe_plan, tamchuwe_mark, tamchuwe_final and tamchuwe_final_apart answer a kind; the numbers that go with
 * it are values, each at its index in the function's table below. The front of `values`, which has room for
 * `values_room` numbers, is filled with as many values as fit, and later entries keep what they hold; `count` gets how
 * many values there are, whether they fit or not. A later version may add values behind these, and counts them; no
 * value ever changes its index or meaning. So a caller lends room for the values that it knows, and sees by `count`
 * that the library has them.
 *
 * THE PRINTED PLAN operates each of its switches once: first the openings, then the closings, each by rising link
 * number. Of several cheapest plans of that form the one is printed whose set of switches comes first: at the lowest
 * link that only one of two sets has, the set that has it comes first. */
#ifndef TAMCHUWE_H
#define TAMCHUWE_H

#include <stddef.h>
#include <stdint.h>

#ifdef __cplusplus
extern "C" {
#endif

/* What each answers for an input that breaks a rule. */
enum { TAMCHUWE_REFUSED = 0 };

/* What tamchuwe_plan answers else. */
enum { TAMCHUWE_PLAN = 1, TAMCHUWE_NONE = 2 };

/* What tamchuwe_mark answers else. */
enum { TAMCHUWE_BROKEN = 1, TAMCHUWE_SHORT = 2, TAMCHUWE_VALID = 3 };

/* What tamchuwe_final and tamchuwe_final_apart answer else. */
enum { TAMCHUWE_FINAL = 1 };

/* Which plan file of a final is the better one. */
enum { TAMCHUWE_FIRST = 0, TAMCHUWE_SECOND = 1, TAMCHUWE_NEITHER = 2 };

/* Lengths in bytes that suffice for every input: by rule 18 a printed plan has at most 12 steps, and no printed
 * number has more than 20 digits (sums of loads are below 2^38: at most 12). */
enum { TAMCHUWE_PLAN_FILE_LENGTH = 106, TAMCHUWE_PLAN_TEXT_LENGTH = 512, TAMCHUWE_MARK_TEXT_LENGTH = 64 };
enum { TAMCHUWE_FINAL_TEXT_LENGTH = 128 };

/* How many values this version has: what `count` gets, of whatever kind the answer is. */
enum { TAMCHUWE_PLAN_VALUES = 5, TAMCHUWE_MARK_VALUES = 2, TAMCHUWE_FINAL_VALUES = 9 };

/* Plans the network file `network` of `length` bytes.
 *
 * Answers the kind of reply; its values, by index:
 *                             0         1         2         3         4
 *     TAMCHUWE_PLAN           steps     cost      fed       dark      lost
 *     TAMCHUWE_NONE           0         0         fed       dark      lost
 *     TAMCHUWE_REFUSED        number    place     0         0         0
 * `fed` sums the own loads of the elements that are live after the plan (at the start for NONE), `dark` the own loads
 * of restorable elements that are not, `lost` those of elements that can't be restored. With TAMCHUWE_PLAN the plan
 * file, 10 + 8 * steps bytes, fills the front of `buffer`, and later bytes keep their values. Where `buffer`, of
 * `room` bytes, is shorter than that file, the answer is TAMCHUWE_REFUSED with number 19 and the length needed. With
 * every answer but TAMCHUWE_PLAN `buffer` keeps all its bytes. */
uint64_t tamchuwe_plan(const uint8_t *network, size_t length, uint8_t *buffer, size_t room, uint64_t *values,
                       size_t values_room, size_t *count);

/* The lines that the program `plan` prints for the network file `network` of `length` bytes: PLAN, OPEN, CLOSE and
 * LOAD; or NONE and LOAD; or REFUSED.
 *
 * Answers their length in bytes, the last line feed included; no 0 byte follows. Where `out`, of `room` bytes, is
 * long enough, they fill its front, and later bytes keep their values; where it is not, it keeps all its bytes. To
 * ask for the length alone, pass room 0; `out` may be null then. */
size_t tamchuwe_plan_text(const uint8_t *network, size_t length, uint8_t *out, size_t room);

/* Marks the plan file that stands directly behind the network file in `input` of `length` bytes.
 *
 * Answers the kind of mark; its values, by index:
 *                             0         1
 *     TAMCHUWE_VALID          cost      excess
 *     TAMCHUWE_SHORT          element   0
 *     TAMCHUWE_BROKEN         step      reason
 *     TAMCHUWE_REFUSED        number    place
 * `excess` is the cost above that of the cheapest valid plan, `element` the lowest restorable one that is still dark
 * after steps of which none is bad, `step` the first bad step, `reason` the lowest that fits it: 1 not an operable
 * switch, 2 already so, 3 unsafe afterwards. */
uint64_t tamchuwe_mark(const uint8_t *input, size_t length, uint64_t *values, size_t values_room, size_t *count);

/* The line that the program `mark` prints for the same input: VALID, SHORT, BROKEN or REFUSED. Answer and `out` as
 * for tamchuwe_plan_text. */
size_t tamchuwe_mark_text(const uint8_t *input, size_t length, uint8_t *out, size_t room);

/* Sets two plan files against one network: the network file, the first plan file and the second stand directly behind
 * one another in `input` of `length` bytes.
 *
 * Answers TAMCHUWE_FINAL or TAMCHUWE_REFUSED; its values, by index:
 *                             0        1      2      3      4      5      6        7        8
 *     TAMCHUWE_FINAL          kind     a      b      kind   a      b      better   offset   length
 *     TAMCHUWE_REFUSED        number   place  0      0      0      0      0        0        0
 * The values 0 to 2 are the first plan file's mark, 3 to 5 the second's: its kind (TAMCHUWE_VALID, TAMCHUWE_SHORT or
 * TAMCHUWE_BROKEN) and the two values that tamchuwe_mark has for it, were this plan file alone behind the network file.
 * `better` is TAMCHUWE_FIRST, TAMCHUWE_SECOND or TAMCHUWE_NEITHER: VALID beats the rest, then the lower cost; an
 * equal cost goes to the first. The part that is handed back are the step records of the better file, without its plan
 * head and its end: the `length` bytes of `input` from `offset` on. With TAMCHUWE_NEITHER it is empty, length 0, at the
 * first file's first step. Look at the answer first: a refusal has 0, as TAMCHUWE_FIRST is, where `better` stands. */
uint64_t tamchuwe_final(const uint8_t *input, size_t length, uint64_t *values, size_t values_room, size_t *count);

/* The lines that the program `trial_final` prints for the same input: both marks, or REFUSED. Answer and `out` as for
 * tamchuwe_plan_text. */
size_t tamchuwe_final_text(const uint8_t *input, size_t length, uint8_t *out, size_t room);

/* As tamchuwe_final, of three files lent apart. `offset` counts from the first byte of the better file, with
 * TAMCHUWE_NEITHER from that of the first file. */
uint64_t tamchuwe_final_apart(const uint8_t *network, size_t network_length, const uint8_t *first, size_t first_length,
                              const uint8_t *second, size_t second_length, uint64_t *values, size_t values_room,
                              size_t *count);

/* As tamchuwe_final_text, of three files lent apart. */
size_t tamchuwe_final_apart_text(const uint8_t *network, size_t network_length, const uint8_t *first,
                                 size_t first_length, const uint8_t *second, size_t second_length, uint8_t *out,
                                 size_t room);

#ifdef __cplusplus
}
#endif

#endif
