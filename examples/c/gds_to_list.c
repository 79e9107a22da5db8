/* Reads a GDSII stream file and prints the rectangles of one layer of one structure as `fracture` does:
 *
 *     gds_to_list FILE STRUCTURE LAYER
 *
 * The corners of the boundaries go from panbuckle_read_gdsii to panbuckle_forward, as they are. A refusal is printed with its number and its
 * place, and docs/OPERATORS.md says more of it than the line on standard error. The exit status is 0 with a list, 1 with a refusal, and 2 where
 * the words or the file cannot be used. */
#include "panbuckle.h"

#include <errno.h>
#include <inttypes.h>
#include <stdio.h>
#include <stdlib.h>
#include <string.h>

enum { FIRST_ROOM = 1 << 16, REFUSED = 1, UNUSABLE = 2 };

static int32_t scratch[PANBUCKLE_GDSII_SCRATCH];
static int32_t corners[2 * PANBUCKLE_MOST_POINTS];

static void give_up(const char *what, const char *why)
{
    fprintf(stderr, "gds_to_list: %s%s%s\n", what, *why ? ": " : "", why);
    exit(UNUSABLE);
}

/* A number of 32 bits from a word. */
static int32_t number_in(const char *word)
{
    char *end;
    errno = 0;
    long long number = strtoll(word, &end, 10);
    if (end == word || *end || errno || number < INT32_MIN || number > INT32_MAX)
        give_up("LAYER is not a whole number of 32 bits", word);
    return (int32_t)number;
}

/* All bytes of a file, and how many there are. */
static uint8_t *read_whole(const char *path, size_t *length)
{
    FILE *file = fopen(path, "rb");
    size_t room = FIRST_ROOM;
    uint8_t *bytes = malloc(room);
    *length = 0;
    if (!file)
        give_up(path, strerror(errno));
    while (bytes) {
        *length += fread(bytes + *length, 1, room - *length, file);
        if (*length < room)
            break;
        uint8_t *more = realloc(bytes, room *= 2);
        if (!more)
            free(bytes);
        bytes = more;
    }
    if (!bytes || ferror(file))
        give_up(path, strerror(errno));
    fclose(file);
    return bytes;
}

/* Says on standard error what a refusal means. */
static void explain(uint64_t answer, uint64_t place)
{
    switch (answer) {
    case PANBUCKLE_TRUNCATED:
        fprintf(stderr, "TRUNCATED: the file ends before ENDLIB; the record at byte %" PRIu64 " is not there, or not whole.\n", place);
        break;
    case PANBUCKLE_RECORD:
        fprintf(stderr, "RECORD: the record at byte %" PRIu64 " is malformed, unknown or out of order, or is a path or a reference.\n", place);
        break;
    case PANBUCKLE_OPEN:
        fprintf(stderr, "OPEN: the boundary's list at byte %" PRIu64 " is empty or not closed.\n", place);
        break;
    case PANBUCKLE_SLANTED:
        fprintf(stderr, "SLANTED: the boundary's list at byte %" PRIu64 " has an edge that is neither horizontal nor vertical.\n", place);
        break;
    case PANBUCKLE_ABSENT:
        fputs("ABSENT: the file has no structure of this name.\n", stderr);
        break;
    case PANBUCKLE_MANY:
        fprintf(stderr, "MANY: the boundaries have more than %d corners.\n", PANBUCKLE_MOST_POINTS);
        break;
    case PANBUCKLE_RANGE:
        fprintf(stderr, "RANGE: corner %" PRIu64 " (counted from 0) has a coordinate below -1000000000 or above 1000000000.\n", place);
        break;
    case PANBUCKLE_OVERLAP:
        fputs("OVERLAP: two boundaries mark one cell.\n", stderr);
        break;
    }
}

static int refuse(const uint64_t *result)
{
    printf("refused %" PRIu64 " place %" PRIu64 "\n", result[PANBUCKLE_ANSWER], result[PANBUCKLE_PLACE]);
    explain(result[PANBUCKLE_ANSWER], result[PANBUCKLE_PLACE]);
    return REFUSED;
}

/* Prints the rectangles of the first corners. With no room lent, ROOM's place is how many there are. The scratch array is done with, and works. */
static int print_list(size_t count)
{
    uint64_t result[5];
    panbuckle_forward(corners, 2 * count, scratch, 2 * count, NULL, 0, result);
    size_t room = 4 * (result[PANBUCKLE_ANSWER] == PANBUCKLE_ROOM ? result[PANBUCKLE_PLACE] : 0);
    int32_t *list = malloc(room * sizeof *list + 1);
    if (!list)
        give_up("the list", strerror(errno));
    if (panbuckle_forward(corners, 2 * count, scratch, 2 * count, list, room, result) != PANBUCKLE_DONE)
        return refuse(result);
    printf("rects %" PRIu64 " area %" PRIu64 " edge %" PRIu64 "\n", result[PANBUCKLE_COUNT], result[PANBUCKLE_AREA], result[PANBUCKLE_EDGE]);
    for (const int32_t *rect = list; rect < list + 4 * result[PANBUCKLE_COUNT]; rect += 4)
        printf("%" PRId32 " %" PRId32 " %" PRId32 " %" PRId32 "\n", rect[0], rect[1], rect[2], rect[3]);
    free(list);
    return 0;
}

int main(int count, char **words)
{
    uint64_t result[3];
    size_t length;
    if (count != 4)
        give_up("usage: gds_to_list FILE STRUCTURE LAYER", "");
    int32_t layer = number_in(words[3]);
    uint8_t *bytes = read_whole(words[1], &length);
    uint32_t answer = panbuckle_read_gdsii(bytes, length, (const uint8_t *)words[2], strlen(words[2]), layer, scratch, corners,
                                           2 * PANBUCKLE_MOST_POINTS, result);
    free(bytes);
    int status = answer == PANBUCKLE_DONE ? print_list(result[PANBUCKLE_COUNT]) : refuse(result);
    if (fflush(stdout) != 0)
        give_up("standard output", strerror(errno));
    return status;
}
