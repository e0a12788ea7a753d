/* Caydubeesh for C and C++: a check and a water budget for island aquifers in which fresh water floats on salt water.

   Eight functions are those of the proved crate `client`; caydubeesh_words and caydubeesh_version say something beside them and decide nothing.
   docs/CLIENT.md says how to build and link them, and shows a caller; docs/CASES.md says what a case is.

   Units. A tick is 1/4,096 m; levels and heads are in ticks. Widths are in metres. Flows, pumpage, the tolerance and the lines of a table are in
   litres a day. K is in mm/day, recharge in µm/day, a leakance in 10⁻⁶ a day, porosity per mille, the time step in days.

   What a caller keeps to
   - A slice is a pointer and a length. The length counts numbers, not bytes, and no more of them than are there.
   - No pointer is NULL, also with a length of 0, and each is aligned for its type.
   - Memory lent for an answer (each pointer without const, `block` too) overlaps nothing else that is lent to the same call. Memory that is lent for
     reading alone may overlap other such memory.

   What a caller gets
   - Each of the eight returns the number of a refusal, 0 for none. Any numbers, bytes and doubles may come in, and slices of any length.
   - An answer goes over the front of what was lent for it. Room beyond what is needed is not touched.
   - A refusal changes no slice, no `tick` and no `metres`: what stands in a verdict after a refusal is what the caller had there. Look at the
     returned number first.
   - `block` is always written: the block that the refusal names, counted from 1, and 0 where it names none or there is no refusal.
   - Nothing is kept from one call to the next and no memory is allocated, so any number of threads may call at once, each with memory of its own for
     the answers. */

#ifndef CAYDUBEESH_H
#define CAYDUBEESH_H

#include <stddef.h>
#include <stdint.h>

/* The version of this header; caydubeesh_version() gives that of the library that is linked. */
#define CAYDUBEESH_VERSION "0.6.1"
#define CAYDUBEESH_VERSION_MAJOR 0
#define CAYDUBEESH_VERSION_MINOR 6
#define CAYDUBEESH_VERSION_PATCH 1

/* How many numbers a record, a verdict, a table, a report and the slots of one block have. */
#define CAYDUBEESH_RECORD 9
#define CAYDUBEESH_VERDICT 4
#define CAYDUBEESH_TABLE 18
#define CAYDUBEESH_REPORT 5
#define CAYDUBEESH_SLOTS 16

/* The most that a case can have: column widths and row widths each, blocks (and so marks), and slots of all blocks together. */
#define CAYDUBEESH_WIDTHS 64
#define CAYDUBEESH_MOST_BLOCKS 512
#define CAYDUBEESH_MOST_SLOTS 8192

/* Ticks to a metre. */
#define CAYDUBEESH_TICKS 4096

/* The places in a record. Either δ is whole and both weights are 0, or δ is 0 and both weights are given. */
enum caydubeesh_record {
    CAYDUBEESH_RECORD_COLUMNS = 0,      /* 1 to 64 */
    CAYDUBEESH_RECORD_ROWS = 1,         /* 1 to 64 */
    CAYDUBEESH_RECORD_LAYERS = 2,       /* 1 to 8, and at most 512 blocks in all */
    CAYDUBEESH_RECORD_DELTA = 3,        /* δ, 1 to 100: the weight of fresh water over the difference of both weights, 40 for sea water;
                                           or 0, and the two weights */
    CAYDUBEESH_RECORD_FRESH_WEIGHT = 4, /* grams a litre, 990 to 1,010; 0 where δ is whole */
    CAYDUBEESH_RECORD_SALT_WEIGHT = 5,  /* grams a litre, 1,011 to 1,050, at least 5 above that of fresh water; 0 where δ is whole */
    CAYDUBEESH_RECORD_FLAG = 6,         /* water-table flag, 0 or 1 */
    CAYDUBEESH_RECORD_STEP = 7,         /* time step, days, 1 to 36,525 */
    CAYDUBEESH_RECORD_TOLERANCE = 8     /* tolerance, litres a day, 0 to 1,000,000,000 */
};

/* The slots of a block. An inactive block has sixteen zeros. */
enum caydubeesh_slot {
    CAYDUBEESH_SLOT_K = 0,                  /* mm/day, 1 to 1,000,000; 0 is inactive */
    CAYDUBEESH_SLOT_BASE = 1,               /* ticks, -4,194,304 to 4,194,304 */
    CAYDUBEESH_SLOT_THICKNESS = 2,          /* ticks, 1 to 4,194,304 */
    CAYDUBEESH_SLOT_POROSITY = 3,           /* per mille, 1 to 1,000 */
    CAYDUBEESH_SLOT_LEAKANCE = 4,           /* to the block above, 10⁻⁶ a day, 0 to 1,000,000; 0 in the top layer */
    CAYDUBEESH_SLOT_RECHARGE = 5,           /* µm/day, 0 to 1,000,000; 0 below the top layer */
    CAYDUBEESH_SLOT_PUMPAGE = 6,            /* litres a day, ±1,073,741,824; positive is taken out */
    CAYDUBEESH_SLOT_SCREEN_BOTTOM = 7,      /* ticks, base <= bottom < top <= base + thickness; */
    CAYDUBEESH_SLOT_SCREEN_TOP = 8,         /* both 0 if pumpage is 0 */
    CAYDUBEESH_SLOT_KIND = 9,               /* of the boundary; see below */
    CAYDUBEESH_SLOT_LEVEL = 10,             /* river stage or sea floor, ticks, ±4,194,304, a sea floor not above 0; 0 for other kinds */
    CAYDUBEESH_SLOT_BOUNDARY_LEAKANCE = 11, /* 10⁻⁶ a day, 1 to 1,000,000; 0 for other kinds */
    CAYDUBEESH_SLOT_OLD_FRESH = 12,         /* heads, ticks, -4,194,304 to 4,194,304 */
    CAYDUBEESH_SLOT_OLD_SALT = 13,
    CAYDUBEESH_SLOT_NEW_FRESH = 14,
    CAYDUBEESH_SLOT_NEW_SALT = 15
};

/* The kinds of boundary; river and sea in the top layer only. */
enum caydubeesh_kind {
    CAYDUBEESH_KIND_NONE = 0,
    CAYDUBEESH_KIND_RIVER = 1,
    CAYDUBEESH_KIND_SEA = 2,
    CAYDUBEESH_KIND_FIXED_FRESH = 3,
    CAYDUBEESH_KIND_FIXED_SALT = 4,
    CAYDUBEESH_KIND_BOTH_FIXED = 5
};

/* The places in a verdict. */
enum caydubeesh_verdict_place {
    CAYDUBEESH_VERDICT_CODE = 0,
    CAYDUBEESH_VERDICT_BLOCK = 1,  /* the first block concerned, counted from 1; 0 if accepted */
    CAYDUBEESH_VERDICT_COUNT = 2,  /* how many places fail: moved heads for 21, dry wells for 22, balances in both fluids for 23 and 24 */
    CAYDUBEESH_VERDICT_LARGEST = 3 /* the largest balance without sign among free heads, litres a day; 0 for 21, 22, or with no free place */
};

/* The codes of a verdict, in the words of caydubeesh_words. caydubeesh_verdict writes 0, 21, 22, 23 or 24, and nothing beside a refusal: what stands in
   the slice is then what stood there before the call, a verdict on another case perhaps. Look at the refusal first; or put 20 there before the call, so
   that the code alone never says "accepted" of a case that was refused. */
enum caydubeesh_code {
    CAYDUBEESH_CODE_ACCEPTED = 0,       /* the heads are accepted */
    CAYDUBEESH_CODE_NOT_JUDGED = 20,    /* the case was not judged */
    CAYDUBEESH_CODE_HEAD_MOVED = 21,    /* a fixed head moved from old to new */
    CAYDUBEESH_CODE_DRY_WELL = 22,      /* a well is dry */
    CAYDUBEESH_CODE_FRESH_BALANCE = 23, /* a balance of fresh water exceeds the tolerance */
    CAYDUBEESH_CODE_SALT_BALANCE = 24   /* a balance of salt water exceeds the tolerance */
};

/* The lines of a table in one fluid, litres a day. Lines 0 to 8 of a table are those of fresh water, 9 to 17 the same of salt water. In each fluid
   storage + error = edge in - edge out + converted + wells + recharge + boundary + supply. What flows from block to block, and to or from a river or sea,
   is rounded to the nearest litre, halves away from zero; storage rates and well shares are cut toward zero, recharge is rounded down. */
enum caydubeesh_line {
    CAYDUBEESH_LINE_STORAGE = 0,   /* what the zone's blocks store */
    CAYDUBEESH_LINE_EDGE_IN = 1,   /* what comes in through the zone's edge, never negative */
    CAYDUBEESH_LINE_EDGE_OUT = 2,  /* what goes out through it, never negative */
    CAYDUBEESH_LINE_CONVERTED = 3, /* what the fluid gains inside the zone by leakage that changes fluid */
    CAYDUBEESH_LINE_WELLS = 4,     /* negative where pumped */
    CAYDUBEESH_LINE_RECHARGE = 5,
    CAYDUBEESH_LINE_BOUNDARY = 6,  /* what rivers and seas bring; what comes in from a sea is salt water, so no sea adds to it in fresh water */
    CAYDUBEESH_LINE_SUPPLY = 7,    /* what fixed heads bring */
    CAYDUBEESH_LINE_ERROR = 8      /* the sum of the balances of free heads */
};

/* The places in a report, metres. */
enum caydubeesh_report_place {
    CAYDUBEESH_REPORT_FRESH_HEAD = 0,
    CAYDUBEESH_REPORT_SALT_HEAD = 1,
    CAYDUBEESH_REPORT_INTERFACE = 2, /* (1 + δ) salt head - δ fresh head; of weights the tick at or below (salt weight · salt head -
                                        fresh weight · fresh head) / (salt weight - fresh weight). It may lie outside the aquifer */
    CAYDUBEESH_REPORT_FRESH_THICKNESS = 3,
    CAYDUBEESH_REPORT_SALT_THICKNESS = 4
};

/* The refusals, each given exactly when its words say so. 6, 9, 10 and 13 name the first block at fault (9 the lower one), 14 the number asked for;
   the others name 0. */
enum caydubeesh_refusal {
    CAYDUBEESH_REFUSED_END = 1,          /* the file ends where a byte is still needed */
    CAYDUBEESH_REFUSED_FORM = 2,         /* a number is longer than its shortest form, or a fifth byte has its high bit set */
    CAYDUBEESH_REFUSED_COUNT = 3,        /* a count or the block total is out of range */
    CAYDUBEESH_REFUSED_TERM = 4,         /* δ, a weight or the pair of weights, flag, step or tolerance is out of range */
    CAYDUBEESH_REFUSED_WIDTH = 5,        /* a width is out of range */
    CAYDUBEESH_REFUSED_SLOT = 6,         /* a slot is out of range */
    CAYDUBEESH_REFUSED_ROOM = 7,         /* a lent slice is too short */
    CAYDUBEESH_REFUSED_BYTES_FOLLOW = 8, /* bytes follow the last block */
    CAYDUBEESH_REFUSED_OVERLAP = 9,      /* an active block's top lies above the base of the block directly above it, both active */
    CAYDUBEESH_REFUSED_CONDUCTANCE = 10, /* a conductance of either fluid exceeds 268,435,456, lateral ones worked out with the greater aquifer
                                            thickness of the two blocks */
    CAYDUBEESH_REFUSED_MARK = 11,        /* a mark is neither 0 nor 1 */
    CAYDUBEESH_REFUSED_METRES = 12,      /* a double is no number, infinite, or its tick outside ±4,194,304, or above 0 for a sea floor; or a tick to
                                            be shown has 2⁵³ or more without sign */
    CAYDUBEESH_REFUSED_DRY_WELL = 13,    /* a table is asked for with a dry well */
    CAYDUBEESH_REFUSED_NO_BLOCK = 14     /* a report names no active block */
};

#ifdef __cplusplus
extern "C" {
#endif

/* What a refusal's number or a verdict's code means, in words; UTF-8, never NULL. 0 is the code's: the heads are accepted. */
const char *caydubeesh_words(uint64_t number);

/* The version of the library, as CAYDUBEESH_VERSION. */
const char *caydubeesh_version(void);

/* A case is four slices.

   record: CAYDUBEESH_RECORD numbers.
   columns, rows: the width of each column and of each row, metres, 1 to 4,096.
   slots: CAYDUBEESH_SLOTS numbers to a block. Blocks are counted from 1, by layer, then row, then column, so that the column runs fastest; layer 1 is
   the deepest, the layer with the greatest number the top one. */

/* Reads a case file into a record, widths and slots. Room for any case: CAYDUBEESH_RECORD, CAYDUBEESH_WIDTHS, CAYDUBEESH_WIDTHS and
   CAYDUBEESH_MOST_SLOTS numbers. What was read passes caydubeesh_check.

   Refused with 7 for a short record; then number by number: 1 or 2, then its range, 3 for a count, 4, 5, or 6 for a slot; straight after the number
   of layers 3 for the total, then 7; after a block's last number 6; after the last block 8, then 9, then 10. */
uint64_t caydubeesh_read(const uint8_t *file, size_t file_length,
                         int64_t *record, size_t record_length,
                         int64_t *columns, size_t columns_length,
                         int64_t *rows, size_t rows_length,
                         int64_t *slots, size_t slots_length,
                         size_t *block);

/* Says what a case is refused with, if anything.

   Refused with 7 for a short record, before all else; then, each over the whole case before the next, 3, 7, 4, 5, 6, 9, 10. */
uint64_t caydubeesh_check(const int64_t *record, size_t record_length,
                          const int64_t *columns, size_t columns_length,
                          const int64_t *rows, size_t rows_length,
                          const int64_t *slots, size_t slots_length,
                          size_t *block);

/* The verdict on the new heads of a case: CAYDUBEESH_VERDICT numbers, code, block, count and largest balance. A refusal leaves them as they were.

   Refused with 7 for a short record; then as caydubeesh_check refuses, with 7 for a short verdict too, in the same place. */
uint64_t caydubeesh_verdict(const int64_t *record, size_t record_length,
                            const int64_t *columns, size_t columns_length,
                            const int64_t *rows, size_t rows_length,
                            const int64_t *slots, size_t slots_length,
                            int64_t *verdict, size_t verdict_length,
                            size_t *block);

/* The water account of a zone: CAYDUBEESH_TABLE lines in litres a day. marks has a number for each block, 1 in the zone and 0 outside it; all 1 for
   the whole grid.

   Refused with 7 for a short record; then as caydubeesh_check refuses, with 7 for short marks or lines too, in the same place; then 11, then 13. */
uint64_t caydubeesh_zone_table(const int64_t *record, size_t record_length,
                               const int64_t *columns, size_t columns_length,
                               const int64_t *rows, size_t rows_length,
                               const int64_t *slots, size_t slots_length,
                               const int64_t *marks, size_t marks_length,
                               int64_t *lines, size_t lines_length,
                               size_t *block);

/* The report of one block by its number, counted from 1: CAYDUBEESH_REPORT doubles in metres, exact, from the new heads.

   Refused with 7 for a short record; then as caydubeesh_check refuses, with 7 for short metres too, in the same place; then 14, which names the number
   asked for. */
uint64_t caydubeesh_report(const int64_t *record, size_t record_length,
                           const int64_t *columns, size_t columns_length,
                           const int64_t *rows, size_t rows_length,
                           const int64_t *slots, size_t slots_length,
                           size_t number,
                           double *metres, size_t metres_length,
                           size_t *block);

/* The tick nearest to a level in metres, halves to the even one. Refused with 12. */
uint64_t caydubeesh_tick(double metres, int64_t *tick);

/* The same of a sea floor, whose tick is not above 0. Refused with 12. */
uint64_t caydubeesh_floor_tick(double metres, int64_t *tick);

/* A tick in metres, exactly. Refused with 12 for a tick of 2⁵³ or more without sign. */
uint64_t caydubeesh_metres(int64_t tick, double *metres);

#ifdef __cplusplus
}
#endif

#endif
