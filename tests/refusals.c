/* Calls the C face so that it gives every answer, with each array that may be NULL also NULL, and checks the numbers that come back and
 * every array that is lent: each is full of 7s before. Prints a line for each call that went wrong, and last how many calls there were. */
#include "panbuckle.h"

#include <stdio.h>
#include <string.h>

enum { LENT = 40, SEVEN = 7 };

static int32_t work[LENT], out[LENT], rect[4], scratch[PANBUCKLE_GDSII_SCRATCH + LENT];
static uint64_t result[5];
static int calls;

static void lend(void)
{
    for (int i = 0; i < LENT; i++)
        work[i] = out[i] = SEVEN;
    for (int i = 0; i < 4; i++)
        rect[i] = SEVEN;
    for (int i = 0; i < 5; i++)
        result[i] = SEVEN;
    for (int i = 0; i < PANBUCKLE_GDSII_SCRATCH + LENT; i++)
        scratch[i] = SEVEN;
}

/* Whether an array begins with these numbers and is all 7s after them. */
static int begins(const int32_t *array, const int32_t *numbers, size_t length)
{
    for (size_t i = 0; i < LENT; i++)
        if (array[i] != (i < length ? numbers[i] : SEVEN))
            return 0;
    return 1;
}

static int untouched(const int32_t *array)
{
    return begins(array, NULL, 0);
}

/* Judges a call by the number that it returned and by what else must hold. */
static void judge(const char *name, uint32_t returned, uint32_t number, uint64_t place, uint64_t count, int rest)
{
    int numbers = result[PANBUCKLE_ANSWER] == number && result[PANBUCKLE_PLACE] == place && result[PANBUCKLE_COUNT] == count;
    calls++;
    if (returned != number || !numbers || !rest)
        printf("call %d, %s: returned %u, answer %u, place %u, count %u%s\n", calls, name, (unsigned)returned,
               (unsigned)result[PANBUCKLE_ANSWER], (unsigned)result[PANBUCKLE_PLACE], (unsigned)result[PANBUCKLE_COUNT],
               rest ? "" : ", and an array is not as it should be");
}

/* An array of 7s as it is lent with a length: of no length it is NULL. */
static int32_t *lent(int32_t *array, size_t length)
{
    return length > 0 ? array : NULL;
}

/* An answer that has no rectangles and leaves both arrays alone, with room for the list and with none. */
static void forward_leaves(const char *name, const int32_t *points, size_t length, size_t work_length, uint32_t number, uint64_t place)
{
    static const size_t rooms[2] = {LENT, 0};
    for (int i = 0; i < 2; i++) {
        lend();
        uint32_t returned = panbuckle_forward(points, length, lent(work, work_length), work_length, lent(out, rooms[i]), rooms[i], result);
        judge(name, returned, number, place, 0, untouched(work) && untouched(out) && result[PANBUCKLE_AREA] == 0 && result[PANBUCKLE_EDGE] == 0);
    }
}

/* An answer that has no points and leaves the array alone, with so much room for them. */
static void backward_leaves(const char *name, const int32_t *rects, size_t length, size_t room, uint32_t number, uint64_t place)
{
    lend();
    uint32_t returned = panbuckle_backward(rects, length, lent(out, room), room, result);
    judge(name, returned, number, place, 0, untouched(out) && result[3] == SEVEN && result[4] == SEVEN);
}

static void step_refused(const char *name, size_t work_length, size_t count, uint32_t number, uint64_t place)
{
    static int32_t before[LENT];
    memcpy(before, work, sizeof work);
    uint32_t returned = panbuckle_step(lent(work, work_length), work_length, count, rect, result);
    int kept = rect[0] == SEVEN && rect[1] == SEVEN && rect[2] == SEVEN && rect[3] == SEVEN;
    judge(name, returned, number, place, 0, memcmp(before, work, sizeof work) == 0 && kept);
}

static const int32_t zeros[LENT];
static const int32_t square[8] = {0, 0, 1, 0, 0, 1, 1, 1};
static const int32_t ring[16] = {0, 0, 4, 0, 0, 4, 4, 4, 1, 1, 3, 1, 1, 3, 3, 3};
static const int32_t ring_list[16] = {0, 0, 4, 1, 0, 1, 1, 3, 3, 1, 1, 2, 1, 3, 3, 1};
static const int32_t touching[16] = {0, 0, 1, 0, 0, 1, 1, 1, 1, 1, 2, 1, 1, 2, 2, 2};
static const int32_t touching_list[8] = {0, 0, 1, 1, 1, 1, 1, 1};

static void forward_calls(void)
{
    static const int32_t far[8] = {0, 0, 1, 0, 0, 1000000001, 1, 1000000001};
    static const int32_t row[6] = {0, 0, 1, 0, 0, 1};
    static const int32_t column[8] = {0, 0, 1, 0, 0, 1, 2, 1};
    static int32_t many[2 * (PANBUCKLE_MOST_POINTS + 1)];
    static const size_t works[2] = {LENT, 0};
    for (int i = 0; i < 2; i++) {
        forward_leaves("forward LENGTH", square, 7, works[i], PANBUCKLE_LENGTH, 0);
        forward_leaves("forward MANY", many, sizeof many / sizeof many[0], works[i], PANBUCKLE_MANY, 0);
        forward_leaves("forward of nothing", square, 0, works[i], PANBUCKLE_DONE, 0);
        forward_leaves("forward of NULL", NULL, 0, works[i], PANBUCKLE_DONE, 0);
    }
    forward_leaves("forward WORK", square, 8, 7, PANBUCKLE_WORK, 0);
    forward_leaves("forward WORK", square, 8, 0, PANBUCKLE_WORK, 0);
    forward_leaves("forward RANGE", far, 8, LENT, PANBUCKLE_RANGE, 2);
    forward_leaves("forward ROW", row, 6, LENT, PANBUCKLE_ROW, 2);
    forward_leaves("forward COLUMN", column, 8, LENT, PANBUCKLE_COLUMN, 1);
}

/* Eight points with a list: with room for less than it and with none, and with just the room. The working array has 16 zeros, also where two of
 * the points are equal and cancel. */
static void list_calls(const int32_t *points, const int32_t *list, size_t length, uint64_t area, uint64_t edge)
{
    const size_t rooms[2] = {length - 1, 0};
    for (int i = 0; i < 2; i++) {
        lend();
        uint32_t full = panbuckle_forward(points, 16, work, LENT, lent(out, rooms[i]), rooms[i], result);
        int none = untouched(out) && result[PANBUCKLE_AREA] == 0 && result[PANBUCKLE_EDGE] == 0;
        judge("forward ROOM", full, PANBUCKLE_ROOM, length / 4, 0, begins(work, zeros, 16) && none);
    }
    lend();
    uint32_t done = panbuckle_forward(points, 16, work, LENT, out, length, result);
    int all = begins(out, list, length) && result[PANBUCKLE_AREA] == area && result[PANBUCKLE_EDGE] == edge;
    judge("forward DONE", done, PANBUCKLE_DONE, 0, length / 4, begins(work, zeros, 16) && all);
}

static void backward_calls(void)
{
    static const int32_t flat[8] = {0, 0, 1, 1, 5, 5, 0, 2};
    static const int32_t far[4] = {999999999, 0, 2, 1};
    static const int32_t twice[8] = {0, 0, 1, 1, 0, 0, 1, 1};
    static const int32_t corners[16] = {0, 0, 4, 0, 1, 1, 3, 1, 1, 3, 3, 3, 0, 4, 4, 4};
    static int32_t many[4 * (PANBUCKLE_MOST_RECTS + 1)];
    static const size_t rooms[2] = {15, 0};
    for (int i = 0; i < 2; i++) {
        backward_leaves("backward LENGTH", ring_list, 15, rooms[i], PANBUCKLE_LENGTH, 0);
        backward_leaves("backward MANY", many, sizeof many / sizeof many[0], rooms[i], PANBUCKLE_MANY, 0);
        backward_leaves("backward FLAT", flat, 8, rooms[i], PANBUCKLE_FLAT, 1);
        backward_leaves("backward RANGE", far, 4, rooms[i], PANBUCKLE_RANGE, 0);
        backward_leaves("backward ROOM", ring_list, 16, rooms[i], PANBUCKLE_ROOM, 8);
        backward_leaves("backward of two that cancel", twice, 8, rooms[i], PANBUCKLE_DONE, 0);
        backward_leaves("backward of nothing", twice, 0, rooms[i], PANBUCKLE_DONE, 0);
        backward_leaves("backward of NULL", NULL, 0, rooms[i], PANBUCKLE_DONE, 0);
    }
    lend();
    uint32_t done = panbuckle_backward(ring_list, 16, out, 16, result);
    judge("backward DONE", done, PANBUCKLE_DONE, 0, 8, begins(out, corners, 16));
}

static void step_calls(void)
{
    lend();
    memcpy(work, square, sizeof square);
    step_refused("step MANY", LENT, PANBUCKLE_MOST_POINTS + 1, PANBUCKLE_MANY, 0);
    step_refused("step MANY", 0, PANBUCKLE_MOST_POINTS + 1, PANBUCKLE_MANY, 0);
    step_refused("step WORK", 7, 4, PANBUCKLE_WORK, 0);
    step_refused("step WORK", 0, 1, PANBUCKLE_WORK, 0);
    step_refused("step DRAINED", LENT, 0, PANBUCKLE_DRAINED, 0);
    step_refused("step DRAINED", 0, 0, PANBUCKLE_DRAINED, 0);
    step_refused("step ROW", LENT, 3, PANBUCKLE_ROW, 2);
    step_refused("step REPEATED", LENT, 6, PANBUCKLE_REPEATED, 5);
    work[6] = 2;
    step_refused("step COLUMN", LENT, 4, PANBUCKLE_COLUMN, 1);
    work[6] = -1000000001;
    step_refused("step RANGE", LENT, 4, PANBUCKLE_RANGE, 3);
    work[6] = 1;
    uint32_t done = panbuckle_step(work, LENT, 4, rect, result);
    judge("step DONE", done, PANBUCKLE_DONE, 0, 0, begins(work, zeros, 8) && memcmp(rect, (int32_t[4]){0, 0, 1, 1}, sizeof rect) == 0);
}

/* Rows that widen and narrow again, 4 * half points, have half * half rectangles. Backward of their list gives the points, or is refused
 * because there are too many rectangles. */
static void diamond_calls(int half, uint32_t number, uint64_t count)
{
    static int32_t diamond[4 * 2 * 129], spare[4 * 2 * 129], list[4 * 129 * 129], back[4 * 2 * 129];
    size_t length = 8 * (size_t)half;
    for (int i = 0; i < 2 * half; i++) {
        int wide = i < half ? i + 1 : 2 * half - i;
        memcpy(diamond + 4 * i, (int32_t[4]){-wide, i, wide, i}, sizeof(int32_t[4]));
    }
    uint32_t listed = panbuckle_forward(diamond, length, spare, length, list, sizeof list / sizeof list[0], result);
    judge("forward of a diamond", listed, PANBUCKLE_DONE, 0, (uint64_t)half * (uint64_t)half, 1);
    uint32_t gone_back = panbuckle_backward(list, 4 * (size_t)half * (size_t)half, back, length, result);
    judge("backward of its list", gone_back, number, 0, count, number != PANBUCKLE_DONE || memcmp(diamond, back, length * sizeof back[0]) == 0);
}

/* ---- Stream files */

enum { HEADER, BGNLIB, LIBNAME, UNITS, ENDLIB, BGNSTR, STRNAME, ENDSTR, BOUNDARY, PATH, LAYER = 13, DATATYPE, XY = 16, ENDEL };
enum { NO_DATA, TWO_BYTES = 2, FOUR_BYTES, REAL = 5, STRING, MOST_DATA = 65528 };
/* Where the first element of the structure begins, and where the list of a boundary that is the first element does. */
enum { FIRST_ELEMENT = 92, FIRST_LIST = 108, HEAD = 4 };

static const uint8_t asked[] = {'A', 'B'};
static const int32_t pad[10] = {0, 0, 4, 0, 4, 3, 0, 3, 0, 0};
static uint8_t stream[2 * (HEAD + MOST_DATA)], whole[sizeof stream];
static size_t stream_length;

static void add_record(int type, int data_type, const uint8_t *data, size_t length)
{
    uint8_t *head = stream + stream_length;
    head[0] = (uint8_t)((HEAD + length) >> 8);
    head[1] = (uint8_t)(HEAD + length);
    head[2] = (uint8_t)type;
    head[3] = (uint8_t)data_type;
    memcpy(head + HEAD, data, length);
    stream_length += HEAD + length;
}

/* A file up to the first element of the structure. */
static void begin_stream(void)
{
    static const uint8_t empty[24];
    stream_length = 0;
    add_record(HEADER, TWO_BYTES, empty, 2);
    add_record(BGNLIB, TWO_BYTES, empty, 24);
    add_record(LIBNAME, STRING, empty, 0);
    add_record(UNITS, REAL, empty, 16);
    add_record(BGNSTR, TWO_BYTES, empty, 24);
    add_record(STRNAME, STRING, asked, sizeof asked);
}

/* A boundary of layer 1: the list, so many times one after another. */
static void add_boundary(const int32_t *list, size_t length, size_t times)
{
    static const uint8_t numbers[2][2] = {{0, 1}, {0, 0}};
    static uint8_t data[MOST_DATA];
    for (size_t i = 0; i < length * times; i++)
        for (size_t byte = 0; byte < 4; byte++)
            data[4 * i + byte] = (uint8_t)((uint32_t)list[i % length] >> (24 - 8 * byte));
    add_record(BOUNDARY, NO_DATA, data, 0);
    add_record(LAYER, TWO_BYTES, numbers[0], 2);
    add_record(DATATYPE, TWO_BYTES, numbers[1], 2);
    add_record(XY, FOUR_BYTES, data, 4 * length * times);
    add_record(ENDEL, NO_DATA, data, 0);
}

static void end_stream(void)
{
    add_record(ENDSTR, NO_DATA, asked, 0);
    add_record(ENDLIB, NO_DATA, asked, 0);
}

static void stream_of(const int32_t *list, size_t length, size_t times)
{
    begin_stream();
    add_boundary(list, length, times);
    end_stream();
}

/* Reads so much of the file, and judges the answer, the corners, the scratch array and that the file is as it was. */
static void read_gives(const char *what, size_t length, size_t asked_length, int32_t layer, size_t room, uint32_t number, uint64_t place,
                       size_t count)
{
    lend();
    memcpy(whole, stream, sizeof stream);
    uint32_t returned = panbuckle_read_gdsii(length > 0 ? stream : NULL, length, asked_length > 0 ? asked : NULL, asked_length, layer, scratch,
                                             lent(out, room), room, result);
    int kept = memcmp(whole, stream, sizeof stream) == 0 && result[3] == SEVEN && result[4] == SEVEN;
    for (size_t i = 0; i < PANBUCKLE_GDSII_SCRATCH + LENT; i++)
        kept = kept && scratch[i] == (i < PANBUCKLE_GDSII_SCRATCH ? 0 : SEVEN);
    judge(what, returned, number, place, count, kept && begins(out, pad, 2 * count));
}

/* A refusal that leaves the corners alone, with room for them and with none. */
static void read_refused(const char *what, size_t length, uint32_t number, uint64_t place)
{
    read_gives(what, length, sizeof asked, 1, LENT, number, place, 0);
    read_gives(what, length, sizeof asked, 1, 0, number, place, 0);
}

static void read_calls(void)
{
    static const int32_t slanted[8] = {0, 0, 4, 0, 4, 3, 0, 0};
    static const int32_t far[10] = {0, 0, 1000000001, 0, 1000000001, 3, 0, 3, 0, 0};
    stream_of(pad, 10, 1);
    read_gives("read DONE", stream_length, sizeof asked, 1, 8, PANBUCKLE_DONE, 0, 4);
    read_gives("read DONE", stream_length, sizeof asked, 1, LENT, PANBUCKLE_DONE, 0, 4);
    read_gives("read of a layer with nothing", stream_length, sizeof asked, 2, 0, PANBUCKLE_DONE, 0, 0);
    read_gives("read of a layer with nothing", stream_length, sizeof asked, -1, LENT, PANBUCKLE_DONE, 0, 0);
    read_gives("read ROOM", stream_length, sizeof asked, 1, 7, PANBUCKLE_ROOM, 4, 0);
    read_gives("read ROOM", stream_length, sizeof asked, 1, 0, PANBUCKLE_ROOM, 4, 0);
    read_gives("read ABSENT", stream_length, 1, 1, LENT, PANBUCKLE_ABSENT, 0, 0);
    read_gives("read ABSENT", stream_length, 0, 1, 0, PANBUCKLE_ABSENT, 0, 0);
    read_gives("read of NULL", 0, 0, 1, 0, PANBUCKLE_TRUNCATED, 0, 0);
    read_refused("read of nothing", 0, PANBUCKLE_TRUNCATED, 0);
    read_refused("read TRUNCATED", stream_length - 1, PANBUCKLE_TRUNCATED, stream_length - HEAD);
    read_refused("read TRUNCATED", FIRST_LIST, PANBUCKLE_TRUNCATED, FIRST_LIST);
    stream_of(pad, 8, 1);
    read_refused("read OPEN", stream_length, PANBUCKLE_OPEN, FIRST_LIST);
    stream_of(slanted, 8, 1);
    read_refused("read SLANTED", stream_length, PANBUCKLE_SLANTED, FIRST_LIST);
    stream_of(far, 10, 1);
    read_refused("read RANGE", stream_length, PANBUCKLE_RANGE, 1);
    stream_of(pad, 10, PANBUCKLE_MOST_POINTS / 4 + 1);
    read_refused("read MANY", stream_length, PANBUCKLE_MANY, 0);
    begin_stream();
    add_boundary(pad, 10, 1);
    add_boundary(pad, 10, 1);
    end_stream();
    read_refused("read OVERLAP", stream_length, PANBUCKLE_OVERLAP, 0);
    begin_stream();
    add_record(PATH, NO_DATA, asked, 0);
    read_refused("read RECORD", stream_length, PANBUCKLE_RECORD, FIRST_ELEMENT);
}

static void version_call(void)
{
    calls++;
    if (panbuckle_version() != PANBUCKLE_VERSION)
        printf("call %d, version: returned %u\n", calls, (unsigned)panbuckle_version());
}

int main(void)
{
    forward_calls();
    list_calls(ring, ring_list, 16, 12, 24);
    list_calls(touching, touching_list, 8, 2, 8);
    backward_calls();
    step_calls();
    diamond_calls(128, PANBUCKLE_DONE, 512);
    diamond_calls(129, PANBUCKLE_MANY, 0);
    read_calls();
    version_call();
    printf("%d calls\n", calls);
    return 0;
}
