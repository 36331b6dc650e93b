/*
 * Tempuquile's two jobs from C: the press and the replay.
 *
 * Every slice is a pointer and how many elements it has. A pointer is never null, not even where the length is 0, and is aligned for
 * its elements. The memory of a slice that is written overlaps no other slice of the call. All else is allowed: any bytes, any
 * lengths, and any contents of the memory that is lent.
 *
 * Every call names an edition: the narrow one has 64 variables, records of 24 bytes and rule lines of 16, and the wide one 128, 40
 * and 32. A press also names how it recycles pivots: at a node with several uses, either nothing is kept of what they allow (the reset),
 * or what all of them allow (the intersection, which mostly presses harder and which the program takes). And it names what is lowered
 * after that: nothing, as by the program; the units, which are clauses of one literal that several steps use; or the univalents, which
 * are nodes that several steps use, all on one and the same literal, and of which nothing else is left but opposites of literals lowered
 * before. What is lowered is resolved with once, at the end, which makes fewer steps and now and then a higher peak. Neither the units
 * nor the univalents leave fewer steps on every sheet. A number that names no edition is answered TEMPUQUILE_NO_EDITION, one that names
 * no recycling TEMPUQUILE_NO_RECYCLING, and one that names no lowering TEMPUQUILE_NO_LOWERING; they are looked at in this order. None of
 * them is a refusal: nothing is touched then, not even `report`.
 *
 * Otherwise both functions answer 0, or the number of the refusal. Both fill `report` with the words listed below, as many as fit in
 * `report_len`; words beyond the list are untouched. On a refusal word 0 is the number of the record refused and the others are 0.
 * On acceptance word 0 is 0.
 */
#ifndef TEMPUQUILE_H
#define TEMPUQUILE_H

#include <stddef.h>
#include <stdint.h>

#ifdef __cplusplus
extern "C" {
#endif

/* The editions, and what is answered to any other number. */
#define TEMPUQUILE_NARROW 0
#define TEMPUQUILE_WIDE 1
#define TEMPUQUILE_NO_EDITION 255

/* The recyclings, and what a press answers to any other number. */
#define TEMPUQUILE_RESET 0
#define TEMPUQUILE_INTERSECTION 1
#define TEMPUQUILE_NO_RECYCLING 254

/* What can be lowered, and what a press answers to any other number. */
#define TEMPUQUILE_NOTHING_LOWERED 0
#define TEMPUQUILE_UNITS_LOWERED 1
#define TEMPUQUILE_UNIVALENTS_LOWERED 2
#define TEMPUQUILE_NO_LOWERING 253

/*
 * The answer: 0, or the first of these that applies. 1 to 5 report record 0, 16 the count of records. Where two numbers are given, as
 * 24 / 40, the first is the narrow edition's and the second the wide one's.
 */
#define TEMPUQUILE_OK 0
#define TEMPUQUILE_RAGGED 1            /* the sheet's length is no multiple of 24 / 40 */
#define TEMPUQUILE_EMPTY 2             /* the sheet is empty */
#define TEMPUQUILE_LONG 3              /* over 1,024 / 512 records (press), over 2,047 / 1,023 (replay) */
#define TEMPUQUILE_TABLE 4             /* the rule table's length is no multiple of 16 / 32, or it has over 1,024 lines */
#define TEMPUQUILE_ROOM 5              /* press: out under 48 N - 24 / 80 N - 40 bytes for N records, or marks fewer than rule lines */
#define TEMPUQUILE_KIND 6              /* unknown kind; for the press a drop too */
#define TEMPUQUILE_NOT_ZERO 7          /* a byte that must be zero isn't */
#define TEMPUQUILE_PIVOT 8             /* pivot over 63 / 127 */
#define TEMPUQUILE_NOT_EARLIER 9       /* a named node isn't earlier */
#define TEMPUQUILE_DROPPED 10          /* replay: a named node was dropped */
#define TEMPUQUILE_PIVOT_MISSING 11    /* +p is missing on the left or -p on the right */
#define TEMPUQUILE_LITERAL_MISSING 12  /* the written clause lacks a literal of the result */
#define TEMPUQUILE_LITERAL_TOO_MANY 18 /* it lacks none but has at least one too many; tried right after 12 */
#define TEMPUQUILE_NO_LINE 13          /* rule line beyond the table */
#define TEMPUQUILE_LINE_DIFFERS 14     /* the given clause differs from its rule line */
#define TEMPUQUILE_SAYS_NOTHING 17     /* the given clause holds a variable both ways; tried right after 14 */
#define TEMPUQUILE_FULL 15             /* replay: a node record, and every slot holds a node */
#define TEMPUQUILE_NOT_HELD 16         /* replay: at the end the last node isn't held */

/* The orders in which a press may write. */
#define TEMPUQUILE_BOTTOM_UP 0
#define TEMPUQUILE_TOP_DOWN 1

/*
 * The words of a press's report. A set is two words: bit v of the low one is variable v, bit v of the high one variable 64 + v. In the
 * narrow edition the high words are 0. The last word is the order of the records that are written.
 */
#define TEMPUQUILE_PRESS_RECORD 0
#define TEMPUQUILE_PRESS_POSITIVE 1
#define TEMPUQUILE_PRESS_NEGATIVE 2
#define TEMPUQUILE_PRESS_RECORDS 3
#define TEMPUQUILE_PRESS_NODES 4
#define TEMPUQUILE_PRESS_STEPS 5
#define TEMPUQUILE_PRESS_PEAK 6
#define TEMPUQUILE_PRESS_MARKED 7
#define TEMPUQUILE_PRESS_POSITIVE_HIGH 8
#define TEMPUQUILE_PRESS_NEGATIVE_HIGH 9
#define TEMPUQUILE_PRESS_ORDER 10
#define TEMPUQUILE_PRESS_WORDS 11

/* The words of a replay's report. */
#define TEMPUQUILE_REPLAY_RECORD 0
#define TEMPUQUILE_REPLAY_POSITIVE 1
#define TEMPUQUILE_REPLAY_NEGATIVE 2
#define TEMPUQUILE_REPLAY_NODES 3
#define TEMPUQUILE_REPLAY_STEPS 4
#define TEMPUQUILE_REPLAY_PEAK 5
#define TEMPUQUILE_REPLAY_POSITIVE_HIGH 6
#define TEMPUQUILE_REPLAY_NEGATIVE_HIGH 7
#define TEMPUQUILE_REPLAY_WORDS 8

/*
 * A slot of the replay's row, the same in both editions: 40 bytes, aligned to 8, each of which belongs to a field. A free slot is all
 * zero; in one that is in use `used` is not zero.
 */
typedef struct tempuquile_slot {
    uint32_t used;        /* at 0: a mark of whether it's in use */
    uint32_t node;        /* at 4: the node's number */
    uint64_t positive[2]; /* at 8: the clause's positive set, the low word first */
    uint64_t negative[2]; /* at 24: its negative set */
} tempuquile_slot;

#if defined(__cplusplus)
#define TEMPUQUILE_HOLDS(fact) static_assert(fact, #fact)
#define TEMPUQUILE_ALIGNED alignof(tempuquile_slot)
#else
#define TEMPUQUILE_HOLDS(fact) _Static_assert(fact, #fact)
#define TEMPUQUILE_ALIGNED _Alignof(tempuquile_slot)
#endif
TEMPUQUILE_HOLDS(sizeof(tempuquile_slot) == 40);
TEMPUQUILE_HOLDS(TEMPUQUILE_ALIGNED == 8);
TEMPUQUILE_HOLDS(offsetof(tempuquile_slot, used) == 0);
TEMPUQUILE_HOLDS(offsetof(tempuquile_slot, node) == 4);
TEMPUQUILE_HOLDS(offsetof(tempuquile_slot, positive) == 8);
TEMPUQUILE_HOLDS(offsetof(tempuquile_slot, negative) == 24);
TEMPUQUILE_HOLDS(sizeof(size_t) == 8);
#undef TEMPUQUILE_HOLDS
#undef TEMPUQUILE_ALIGNED

/*
 * Presses `sheet` against the rule table `rules`, both of `edition`, by `recycling` and `lowering`.
 *
 * Accepted: `out` starts with the pressed sheet, of the same edition, 24 or 40 bytes for each of the records reported, and is untouched
 * beyond; `marks` starts with 1 or 0 for each rule line, and is untouched beyond. Of two orders, bottom-up and top-down, the sheet is in
 * the one with the smaller peak; if the peaks are equal, bottom-up. Refused: neither is changed.
 */
uint32_t tempuquile_press(uint32_t edition, uint32_t recycling, uint32_t lowering, const uint8_t *sheet, size_t sheet_len,
                          const uint8_t *rules, size_t rules_len, uint8_t *out, size_t out_len, uint8_t *marks, size_t marks_len,
                          uint64_t *report, size_t report_len);

/*
 * Replays `sheet` against the rule table `rules`, both of `edition`, holding clauses in the row `slots`, of `slots_len` slots (not
 * bytes).
 *
 * Refused by 1 to 4: the slots are left alone. Every other replay, accepted too, ends with all slots free and zero.
 */
uint32_t tempuquile_replay(uint32_t edition, const uint8_t *sheet, size_t sheet_len, const uint8_t *rules, size_t rules_len,
                           tempuquile_slot *slots, size_t slots_len, uint64_t *report, size_t report_len);

#ifdef __cplusplus
}
#endif

#endif
