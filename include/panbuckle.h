/* Panbuckle from C: the corner points of right-angled shapes become disjoint rectangles, and back.
 *
 * Link with libpanbuckle_c.a, which `rt lib` in crates/panbuckle_c proves and writes to out/ there. It is for x86-64 and the System V
 * calling convention, and needs nothing but memset. The functions keep no state, allocate nothing, call nothing back and end for every
 * input, so that any number of threads may call them at once, each with arrays of its own. They use at most 11 KiB of stack forward, in a step
 * and for a stream file, and 13.5 KiB backward, which is measured and not proved.
 *
 * What each function returns and writes is proved, for every content and length of the arrays: no caller has to check anything first.
 * What C cannot say and the caller owes is this, for each pointer: it points to as many numbers as its length says (it may be NULL where
 * that is 0) or as the brackets say (it is never NULL); and no array that is written overlaps another. If one does, the outcome is undefined.
 *
 * A point is two numbers, x and y, each from -1000000000 to 1000000000. A rectangle is four: X and Y of the lower left corner, W and H.
 * A row is all points with one y, a column all points with one x. Points, rectangles and places are counted from 0; lengths are counted in
 * numbers, not in points, rectangles or bytes. */
#ifndef PANBUCKLE_H
#define PANBUCKLE_H

#include <stddef.h>
#include <stdint.h>

/* What the compiler is told, where it understands it. In C, gcc then warns (-O2 -Wall) of an array that is passed twice, of one that is seen
 * to be shorter than its length or its brackets say, and of a NULL that is not allowed. */
#if !defined(__cplusplus) && defined(__STDC_VERSION__) && __STDC_VERSION__ >= 199901L
#define PANBUCKLE_LENT restrict
#define PANBUCKLE_FIXED restrict static
#else
#define PANBUCKLE_LENT
#define PANBUCKLE_FIXED
#endif
#ifdef __has_attribute
#define PANBUCKLE_KNOWN(attribute) __has_attribute(attribute)
#else
#define PANBUCKLE_KNOWN(attribute) 0
#endif
#if PANBUCKLE_KNOWN(__access__)
#define PANBUCKLE_ACCESS(mode, pointer, length) __attribute__((__access__(mode, pointer, length)))
#else
#define PANBUCKLE_ACCESS(mode, pointer, length)
#endif
#if PANBUCKLE_KNOWN(__retain__)
#define PANBUCKLE_KEPT __attribute__((__used__, __retain__))
#elif PANBUCKLE_KNOWN(__used__)
#define PANBUCKLE_KEPT __attribute__((__used__))
#else
#define PANBUCKLE_KEPT
#endif

#ifdef __cplusplus
extern "C" {
#endif

/* The version. It rises by one when a program that was built with the older header would go wrong: when a signature, the meaning of a number
 * or the order of an array's numbers changes; not when a function or a refusal is added. The archive's function has it in its name, and
 * every program that includes this header refers to that name, so that it does not link with an archive of another version. (A compiler that
 * does not know the attribute retain, as gcc before 11, cannot keep a linker that drops unused sections from dropping this reference.) */
#define PANBUCKLE_VERSION 3
#define panbuckle_version panbuckle_version_3
uint32_t panbuckle_version_3(void);
PANBUCKLE_KEPT static uint32_t (*const panbuckle_linked)(void) = panbuckle_version_3;

/* The answers. Each is given exactly when its words hold, and those of no earlier check of the function do. With PANBUCKLE_DONE the list,
 * the points, the rectangle or the corners are written. On any other answer nothing is written to them, and the place says where: the first point,
 * rectangle or corner at fault, or the byte where the record at fault begins; with PANBUCKLE_ROOM how many rectangles, points or corners there
 * would be; otherwise 0. */
enum {
    PANBUCKLE_DONE = 0,       /* none below */
    PANBUCKLE_LENGTH = 1,     /* array length not a multiple of 2 (points), of 4 (rectangles read backward) */
    PANBUCKLE_MANY = 2,       /* over 4,096 points forward or in a step, or corners read, over 16,384 rectangles backward, program input too long */
    PANBUCKLE_WORK = 3,       /* working array shorter than two numbers per point */
    PANBUCKLE_RANGE = 4,      /* a coordinate, or a rectangle's far side, out of range (-1,000,000,000 to 1,000,000,000) */
    PANBUCKLE_REPEATED = 5,   /* a point equal to an earlier one */
    PANBUCKLE_ROW = 6,        /* a row with an odd count */
    PANBUCKLE_COLUMN = 7,     /* a column with an odd count */
    PANBUCKLE_ROOM = 8,       /* the result needs more room */
    PANBUCKLE_FLAT = 9,       /* W or H below 1 */
    PANBUCKLE_DRAINED = 10,   /* a step asked with no points left */
    PANBUCKLE_TEXT = 11,      /* the program's input has a bad line */
    PANBUCKLE_TRUNCATED = 12, /* the bytes end before ENDLIB, or inside a record or its four-byte head */
    PANBUCKLE_RECORD = 13,    /* a record is malformed, unknown or out of order; in the structure that is read, a path or reference */
    PANBUCKLE_OPEN = 14,      /* a boundary's list is empty or not closed */
    PANBUCKLE_SLANTED = 15,   /* a boundary has an edge that is neither horizontal nor vertical */
    PANBUCKLE_ABSENT = 16,    /* no structure has the name */
    PANBUCKLE_OVERLAP = 17    /* two boundaries mark one cell */
};

enum {
    PANBUCKLE_MOST_POINTS = 4096,  /* forward and a step take so many points at the most, and so many corners are read */
    PANBUCKLE_MOST_RECTS = 16384,  /* backward takes so many rectangles at the most */
    PANBUCKLE_GDSII_SCRATCH = 8192 /* how many numbers the scratch array of panbuckle_read_gdsii has */
};

/* The places of a result's numbers. */
enum {
    PANBUCKLE_ANSWER = 0, /* one of the answers above, which the function also returns */
    PANBUCKLE_PLACE = 1,  /* 0 with PANBUCKLE_DONE */
    PANBUCKLE_COUNT = 2,  /* forward: rectangles; backward: points; a step: points that are left; a stream: corners; 0 with a refusal */
    PANBUCKLE_AREA = 3,   /* forward only: the sum of W * H; 0 with a refusal */
    PANBUCKLE_EDGE = 4    /* forward only: the length of the outline of the marked cells; 0 with a refusal */
};

/* Forward: the points, in any order, become disjoint rectangles that cover just the cells which the points mark, in rising order of Y,
 * then X. A point may be listed more than once, as where two shapes meet at a corner: listed an even number of times it vanishes, otherwise it
 * stands once. The list, its sums and the bound below are of the points that remain; the checks, their places and the length of work are of the
 * points as given.
 *
 * points   x and y, point after point: only read. An empty array is accepted and has no rectangles.
 * work     scratch space, points_length numbers at least. With PANBUCKLE_DONE and PANBUCKLE_ROOM its first points_length numbers are 0
 *          afterwards; otherwise it is as it was. What is past them is never touched.
 * rects    room for the list, four numbers to a rectangle. With PANBUCKLE_DONE it begins with X, Y, W, H of each; what is past them,
 *          and all of it on any refusal, is as it was. To learn how many rectangles there are, lend no room, NULL and 0: PANBUCKLE_ROOM's
 *          place is their number; then lend four numbers for each. n points that remain, on r rows, have at most
 *          n / 2 * (r - 1) of them; the most that were seen of 4096 points are 1048576.
 * result   answer, place, count, area, edge: always all five are written. The edge counts the unit sides of marked cells that border on one
 *          that is not marked, so that it has no seams: on each row the points by rising x in pairs, the distances added, and the same by
 *          columns. It is at most 2000000000 for each point.
 *
 * Checked in this order, each over the whole input: LENGTH, MANY, WORK, RANGE, ROW, COLUMN, ROOM. */
PANBUCKLE_ACCESS(__read_only__, 1, 2) PANBUCKLE_ACCESS(__write_only__, 3, 4) PANBUCKLE_ACCESS(__write_only__, 5, 6)
uint32_t panbuckle_forward(const int32_t *PANBUCKLE_LENT points, size_t points_length, int32_t *PANBUCKLE_LENT work, size_t work_length,
                           int32_t *PANBUCKLE_LENT rects, size_t rects_length, uint64_t result[PANBUCKLE_FIXED 5]);

/* One step of forward: takes the first rectangle of the points that stand in a working array, and leaves there the points of the rest.
 * Forward is this, from the points that remain, copied in where each is first listed, until PANBUCKLE_DRAINED. A step itself refuses a point that
 * is there twice.
 *
 * work     the points at its start, two numbers to each. With PANBUCKLE_DONE it begins with the points that are left, and up to twice the
 *          count given zeros follow them; what is past that, and all of it on any refusal, is as it was. Points keep their places: into
 *          the place of one that goes moves the last, and one that comes stands after the last.
 * count    how many points there are; for the next step pass result[PANBUCKLE_COUNT].
 * rect     with PANBUCKLE_DONE X, Y, W, H of the rectangle; on any refusal as it was.
 * result   answer, place, count: always all three are written.
 *
 * Checked in this order: MANY, WORK, DRAINED, RANGE, REPEATED, ROW, COLUMN. */
PANBUCKLE_ACCESS(__read_write__, 1, 2)
uint32_t panbuckle_step(int32_t *PANBUCKLE_LENT work, size_t work_length, size_t count, int32_t rect[PANBUCKLE_FIXED 4],
                        uint64_t result[PANBUCKLE_FIXED 3]);

/* Backward: the points that are a corner of an odd number of the rectangles, once each, in order of y, then x. The rectangles may overlap
 * or repeat. Backward of forward's list gives the points that remain of forward's, in this order, if the list has at most
 * PANBUCKLE_MOST_RECTS rectangles. Of a longer one, which 516 points can have, the answer is PANBUCKLE_MANY.
 *
 * rects    X, Y, W, H, rectangle after rectangle: only read.
 * points   room for the points, two numbers to each. With PANBUCKLE_DONE it begins with x and y of each; what is past them, and all of it
 *          on any refusal, is as it was. There are at most four points to a rectangle; PANBUCKLE_ROOM's place is the number of points.
 * result   answer, place, count: always all three are written.
 *
 * Checked in this order: LENGTH, MANY, FLAT, RANGE, ROOM. */
PANBUCKLE_ACCESS(__read_only__, 1, 2) PANBUCKLE_ACCESS(__write_only__, 3, 4)
uint32_t panbuckle_backward(const int32_t *PANBUCKLE_LENT rects, size_t rects_length, int32_t *PANBUCKLE_LENT points, size_t points_length,
                            uint64_t result[PANBUCKLE_FIXED 3]);

/* GDSII in: the corners of one layer's boundaries in one structure of a stream file, in the stream's order, ready for forward. They mark each
 * unit cell that a boundary marks by the even-odd rule, and no other. A corner where two boundaries meet is there twice, and forward takes it.
 * docs/GDSII.md says what of the format is read, skipped and refused.
 *
 * bytes    the stream file, up to gigabytes: only read, once, from the start to ENDLIB; nothing after that matters.
 * name     the structure's name, without padding: the first structure that has it is read.
 * layer    the layer: any number; where the structure has none of it, there are no corners. All datatypes of the layer are read.
 * scratch  scratch space of 8192 numbers, whatever they are; on every answer all of them are 0 afterwards.
 * corners  room for the corners, two numbers to each. With PANBUCKLE_DONE it begins with x and y of each; what is past them, and all of it
 *          on any refusal, is as it was. There are at most 4096; PANBUCKLE_ROOM's place is their number.
 * result   answer, place, count: always all three are written. With TRUNCATED, RECORD, OPEN and SLANTED the place is the byte of the file where
 *          the record begins, or should.
 *
 * Checked in this order, of the first four the one that is met first in the stream: TRUNCATED, RECORD, OPEN, SLANTED, ABSENT, MANY, RANGE,
 * OVERLAP, ROOM. */
PANBUCKLE_ACCESS(__read_only__, 1, 2) PANBUCKLE_ACCESS(__read_only__, 3, 4) PANBUCKLE_ACCESS(__write_only__, 7, 8)
uint32_t panbuckle_read_gdsii(const uint8_t *PANBUCKLE_LENT bytes, size_t bytes_length, const uint8_t *PANBUCKLE_LENT name, size_t name_length,
                              int32_t layer, int32_t scratch[PANBUCKLE_FIXED 8192], int32_t *PANBUCKLE_LENT corners, size_t corners_length,
                              uint64_t result[PANBUCKLE_FIXED 3]);

#ifdef __cplusplus
}
#endif

#endif
