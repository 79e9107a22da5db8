/* Reads points from standard input, "x y" on each line, and prints their rectangles as `fracture` does; what `fracture` cannot read, it does not
 * read either. It uses the whole C face: forward makes the list; of the points that do not cancel, a step after the other makes it again, and
 * backward of the list gives them back. */
#include "panbuckle.h"

#include <inttypes.h>
#include <stdio.h>
#include <string.h>

enum { MOST_RECTS = 3200, MOST_BYTES = 65536, MOST_DIGITS = 10 };

static int32_t points[2 * PANBUCKLE_MOST_POINTS];
static int32_t kept[2 * PANBUCKLE_MOST_POINTS];
static int32_t work[2 * PANBUCKLE_MOST_POINTS];
static int32_t list[4 * MOST_RECTS];

/* Reads a number, an optional minus and one to ten digits that fit 32 bits, and the byte that must come after it. Gives what follows, or NULL. */
static const char *read_number(const char *at, char after, int32_t *number)
{
    int64_t value = 0, sign = *at == '-' ? -1 : 1;
    const char *digits = at += *at == '-';
    while (*at >= '0' && *at <= '9' && at - digits < MOST_DIGITS)
        value = 10 * value + (*at++ - '0');
    value *= sign;
    if (at == digits || *at != after || value < INT32_MIN || value > INT32_MAX)
        return NULL;
    *number = (int32_t)value;
    return at + 1;
}

/* How many points there are, or -1 if what is read is no list of at most 4096 points. The text ends with a zero, at which no number goes on. */
static int read_points(void)
{
    static char text[MOST_BYTES + 2];
    size_t length = fread(text, 1, MOST_BYTES + 1, stdin);
    int n = 0;
    if (length > MOST_BYTES)
        return -1;
    for (const char *at = text; at < text + length; n++) {
        if (n == PANBUCKLE_MOST_POINTS)
            return -1;
        at = read_number(at, ' ', &points[2 * n]);
        at = at ? read_number(at, '\n', &points[2 * n + 1]) : NULL;
        if (!at)
            return -1;
    }
    return n;
}

/* Keeps the points that are listed an odd number of times, each once, where it is first listed; the others cancel. Gives how many are kept. */
static size_t keep_odd(size_t n)
{
    size_t count = 0;
    for (size_t i = 0; i < n; i++) {
        size_t times = 0, before = 0;
        for (size_t j = 0; j < n; j++)
            if (points[2 * j] == points[2 * i] && points[2 * j + 1] == points[2 * i + 1]) {
                times++;
                before += j < i;
            }
        if (times % 2 == 1 && before == 0)
            memcpy(kept + 2 * count++, points + 2 * i, 2 * sizeof points[0]);
    }
    return count;
}

/* Whether steps, from the n points that are kept on until none is left, give the list's rectangles one after another. */
static int steps_agree(size_t n, uint64_t rects)
{
    int32_t rect[4];
    uint64_t result[3];
    size_t left = n;
    memcpy(work, kept, n * sizeof kept[0] * 2);
    for (uint64_t i = 0; i < rects; i++) {
        if (panbuckle_step(work, 2 * n, left, rect, result) != PANBUCKLE_DONE)
            return 0;
        if (memcmp(rect, list + 4 * i, sizeof rect) != 0)
            return 0;
        left = result[PANBUCKLE_COUNT];
    }
    return panbuckle_step(work, 2 * n, left, rect, result) == PANBUCKLE_DRAINED;
}

/* Whether each of the n points that are kept is one of those that backward gives of the list, and there are no others. */
static int backward_agrees(size_t n, uint64_t rects)
{
    static int32_t back[2 * PANBUCKLE_MOST_POINTS];
    uint64_t result[3];
    if (panbuckle_backward(list, 4 * rects, back, 2 * PANBUCKLE_MOST_POINTS, result) != PANBUCKLE_DONE || result[PANBUCKLE_COUNT] != n)
        return 0;
    for (size_t i = 0; i < n; i++) {
        size_t j = 0;
        while (j < n && (back[2 * j] != kept[2 * i] || back[2 * j + 1] != kept[2 * i + 1]))
            j++;
        if (j == n)
            return 0;
    }
    return 1;
}

int main(void)
{
    uint64_t result[5];
    int n = read_points();
    if (n < 0) {
        fputs("plate: the input is no list of at most 4096 points, a line x y for each\n", stderr);
        return 2;
    }
    if (panbuckle_forward(points, 2 * (size_t)n, work, 2 * (size_t)n, list, 4 * MOST_RECTS, result) != PANBUCKLE_DONE) {
        printf("refused %" PRIu64 " place %" PRIu64 "\n", result[PANBUCKLE_ANSWER], result[PANBUCKLE_PLACE]);
        return 1;
    }
    uint64_t count = result[PANBUCKLE_COUNT];
    printf("rects %" PRIu64 " area %" PRIu64 " edge %" PRIu64 "\n", count, result[PANBUCKLE_AREA], result[PANBUCKLE_EDGE]);
    for (uint64_t i = 0; i < count; i++)
        printf("%" PRId32 " %" PRId32 " %" PRId32 " %" PRId32 "\n", list[4 * i], list[4 * i + 1], list[4 * i + 2], list[4 * i + 3]);
    size_t left = keep_odd((size_t)n);
    if (!steps_agree(left, count) || !backward_agrees(left, count)) {
        fputs("plate: the steps or the way back disagree with the list\n", stderr);
        return 2;
    }
    return 0;
}
