/* The proved engine as a static library: `./test library` writes target/staticlib/liblibrary.a.
 *
 * A session is lent as 64-bit words; docs/LAYOUT.md says how many and what stands in each. The words past the layout
 * are never read or written. Nothing is kept between calls, and no call allocates. Any words, bytes and numbers may be
 * lent: no function relies on a check by its caller. The functions may be called from several threads as long as no two
 * are lent the same words or bytes at once. Pointers are never null and aligned for their type, also where a length is
 * 0, and what they point to does not overlap.
 *
 * A refusal has the number of document 01 (docs/REFUSALS.md) wherever one is returned, and 0 is done. */
#ifndef FALTXIGOR_H
#define FALTXIGOR_H

#include <stddef.h>
#include <stdint.h>

#ifdef __cplusplus
extern "C" {
#endif

/* Bytes of stack that are enough for a thread that makes these calls. */
#define FALTXIGOR_STACK 65536

/* Writes a fresh session. Returns the refusal: 0 done, 1 the memory is too short, and then nothing is written. */
uint64_t faltxigor_fresh(uint64_t *memory, size_t words);

/* A question, so that its answer is no refusal: 1 if the words are a sound session, else 0; also 0 if the memory is too
 * short. */
uint64_t faltxigor_sound(const uint64_t *memory, size_t words);

/* One operation: its code and fields, of which those past what the code has are not looked at. Returns the refusal:
 * 0 accepted, 1 the memory is too short, 2 the session is not sound, 6 to 21 and 24 as docs/REFUSALS.md has them. A single
 * operation belongs to no edition: every code is taken, 13 too. *made is the handle or link made, or 0; of an end, and of
 * destroying a task, the steps climbed. A refusal changes nothing in the memory and leaves 0 in *made. The whole session
 * is looked at in each call: for many operations take faltxigor_run. */
uint64_t faltxigor_apply(uint64_t *memory, size_t words, uint64_t code, uint64_t f0, uint64_t f1, uint64_t f2,
                         uint64_t f3, uint64_t f4, uint64_t *made);

/* Many operations: a sheet, which is its edition, 1 or 2, and then records, each a code and its fields; edition 2 has
 * operation 13 beside the twelve of edition 1. A number is in groups of seven bits, lowest first, the high bit set on all
 * but the last byte, in the fewest bytes. The answer line of each record goes into `lines` behind the first *used bytes,
 * 32 bytes at most: its number from 1, the refusal, and what *made is. A session from faltxigor_fresh that was changed by
 * these functions alone is looked at once, before the first record, and so is any other that every operation keeps sound
 * (docs/DECISIONS.md, "Kept"); the rest at each record.
 *
 * Returns the refusal that ended the sheet, 0 at its end: 1 the session's memory is too short, or under 32 bytes of `lines`
 * are free; 2 the session is not sound; 3 to 6 the sheet's bytes. 2 to 6 have their line too. The refusals of single
 * operations, 7 to 21 and 24, are in their lines and end nothing. *used is then the length of the lines; *place the place
 * in the sheet of the record that was not run, or its end; *number the number of the record begun last, 0 for the sheet's
 * first number. Where 1 is met at record 0 nothing has changed; where it is met later, the records before it have been run. */
uint64_t faltxigor_run(const uint8_t *sheet, size_t sheet_bytes, uint64_t *memory, size_t words, uint8_t *lines,
                       size_t line_bytes, size_t *used, size_t *place, uint64_t *number);

/* The line that the sheet program prints last, into `lines` behind the first *used bytes: live tasks, undelivered links,
 * dropped. Returns the refusal: 0 done, and *used is then the length of the lines; 1 the session's memory is too short, or
 * under 32 bytes of `lines` are free, and then nothing is written and *used stays. */
uint64_t faltxigor_last_line(const uint64_t *memory, size_t words, uint8_t *lines, size_t line_bytes, size_t *used);

/* Words that say where a class report stands. */
#define FALTXIGOR_CLASS_WORDS 18

/* A part of a class report (document 02, E1 and E2): its next lines, from the start of `lines` on, as long as 128 bytes are
 * free, the room of one line. The first 18 words of `state` say where the report stands, and then where the next part
 * goes on: 18 words that are 0 are its start, and where state[0] is 7 nothing is left. So clear them, call until
 * state[0] is 7, and take *used bytes away from `lines` after each call. Each call is lent the same file, and may be lent
 * another memory: it writes a fresh session there first, so that room for many lines saves time, and leaves the session
 * of the part's last sheet. Of a learner's sheets only the one that counts is run.
 *
 * Any words may stand in `state`. They are what comes next (0 the head, 1 the number of sheets, 2 a learner, 3 a
 * turn, 4 a length, 5 a sheet, 6 the last line, 8 the line of the pending sheet, any other nothing); the place in the
 * file, where one past the end is the end; value and weight of a number of which some bytes were read; the sheets left,
 * with this one; its learner, turn and length; the number of a stop, or 0; the pending sheet, which counts for its
 * learner unless a later one supersedes it: 0 if there is none, and its learner, turn, place in the file and length;
 * and the sums so far: records, refused, starts, dropped. Where something is left, a call that is not refused comes
 * nearer to the end.
 *
 * Returns the refusal: 0 done, and *used is the length of the lines; 1 there are under 18 words of `state`, under 128
 * bytes of `lines`, or the session's memory is too short, and then nothing is changed and *used is 0. */
uint64_t faltxigor_class(const uint8_t *file, size_t file_bytes, uint64_t *state, size_t state_words, uint64_t *memory,
                         size_t words, uint8_t *lines, size_t line_bytes, size_t *used);

#ifdef __cplusplus
}
#endif

#endif
