/* Calls the C face as the lines of standard input say, and prints a line for each call, with everything that came of it.
 *
 * A line is a function's name and its arguments in the order of the header, with one space before each word. An array is TYPE LENGTH FILL
 * GIVEN and so many numbers as GIVEN says: it begins with them, and the others are FILL. The numbers of an array of bytes are one word, two
 * hexadecimal digits for each. A number by itself is `number` N; the length of an array is no argument of its own.
 *
 * The line that is printed is the number that the function returned and then, for each array, a semicolon, how many bytes of the guard
 * zones before and after it were changed, and all its numbers, or = if all are as they were. The equal ones at its end are printed as N*COUNT.
 *
 * For another function add a case to `call`; for another type of numbers a row to `types` and a case to `load` and `store`. */
#include "panbuckle.h"

#include <stdio.h>
#include <stdlib.h>
#include <string.h>

enum { MOST_ARGUMENTS = 8, LONGEST_WORD = 32, ZONE = 64, ALIGNED = 8, GUARD = 0x5a, MEMORY = 1 << 21, BUFFER = 1 << 16, LONGEST_COPY = 1024 };

static void give_up(const char *what, const char *word)
{
    fprintf(stderr, "driver: %s: %s\n", what, word);
    exit(2);
}

/* ---- Standard input and output */

static char input[BUFFER], output[BUFFER];
static size_t input_at, input_end, output_end;

/* The next byte, which stays the next one; or -1 at the end. */
static int peek(void)
{
    if (input_at == input_end) {
        input_at = 0;
        input_end = fread(input, 1, BUFFER, stdin);
    }
    return input_end == 0 ? -1 : (unsigned char)input[input_at];
}

/* Reads the next word of a line; whether there is one. */
static int read_word(char *word)
{
    size_t length = 0;
    while (peek() == ' ')
        input_at++;
    while (peek() > ' ' && length < LONGEST_WORD - 1) {
        word[length++] = (char)peek();
        input_at++;
    }
    word[length] = 0;
    return length > 0;
}

/* Passes the space before a word, and a minus at its start; whether there is one. */
static int begin_number(void)
{
    if (peek() == ' ')
        input_at++;
    int negative = peek() == '-';
    input_at += (size_t)negative;
    if (peek() <= ' ')
        give_up("a number is expected", "the line ends");
    return negative;
}

/* Reads a number of 64 bits; of a negative one these are its bits. */
static uint64_t read_number(void)
{
    int negative = begin_number();
    uint64_t number = 0;
    for (int digit; (digit = peek()) > ' '; input_at++) {
        if (digit < '0' || digit > '9')
            give_up("a number is expected", "there is another byte");
        number = 10 * number + (uint64_t)(digit - '0');
    }
    return negative ? -number : number;
}

static int read_digit(void)
{
    int digit = peek();
    input_at++;
    if (digit >= '0' && digit <= '9')
        return digit - '0';
    if (digit < 'a' || digit > 'f')
        give_up("a hexadecimal digit is expected", "there is another byte");
    return digit - 'a' + 10;
}

static void read_bytes(unsigned char *bytes, size_t length)
{
    if (length > 0 && peek() == ' ')
        input_at++;
    for (size_t i = 0; i < length; i++) {
        int high = read_digit();
        bytes[i] = (unsigned char)(16 * high + read_digit());
    }
}

static void write_output(void)
{
    fwrite(output, 1, output_end, stdout);
    fflush(stdout);
    output_end = 0;
}

static void put(char byte)
{
    if (output_end == BUFFER)
        write_output();
    output[output_end++] = byte;
}

static void put_number(uint64_t number, int negative)
{
    char digits[LONGEST_WORD];
    size_t length = 0;
    uint64_t rest = negative ? -number : number;
    do
        digits[length++] = (char)('0' + rest % 10);
    while ((rest /= 10) > 0);
    if (negative)
        put('-');
    while (length > 0)
        put(digits[--length]);
}

/* ---- Arguments */

enum type { U8, I32, U64, NUMBER };

static const struct {
    const char *name;
    size_t width;
    int is_signed;
} types[] = {[U8] = {"u8", sizeof(uint8_t), 0},
             [I32] = {"i32", sizeof(int32_t), 1},
             [U64] = {"u64", sizeof(uint64_t), 0},
             [NUMBER] = {"number", 0, 0}};

/* A number by itself, or an array; the guard zone after an array goes up to the start of the next one's. */
struct argument {
    enum type type;
    uint64_t number;
    size_t length;
    unsigned char *start, *end, *zone_end;
};

/* The arrays with their guard zones, and a copy of all from before the call. */
static _Alignas(ALIGNED) unsigned char memory[MEMORY], copy[MEMORY];

static uint64_t load(const struct argument *a, size_t i)
{
    if (a->type == U8)
        return a->start[i];
    return a->type == I32 ? (uint64_t)(int64_t)((const int32_t *)(const void *)a->start)[i] : ((const uint64_t *)(const void *)a->start)[i];
}

static void store(struct argument *a, size_t i, uint64_t number)
{
    if (a->type == U8)
        a->start[i] = (uint8_t)number;
    else if (a->type == I32)
        ((int32_t *)(void *)a->start)[i] = (int32_t)number;
    else
        ((uint64_t *)(void *)a->start)[i] = number;
}

static enum type type_named(const char *word)
{
    for (size_t type = 0; type < sizeof types / sizeof types[0]; type++)
        if (strcmp(types[type].name, word) == 0)
            return (enum type)type;
    give_up("there is no such type", word);
    return I32;
}

/* Fills an array with one number, from a place on. Each part is copied from what stands there already, and none is long: emulators are slow at
 * those. */
static void fill_from(struct argument *a, size_t place, uint64_t number)
{
    if (place == a->length)
        return;
    store(a, place, number);
    unsigned char *first = a->start + place * types[a->type].width;
    size_t size = (size_t)(a->end - first);
    for (size_t done = types[a->type].width, next; done < size; done += next) {
        next = done < LONGEST_COPY ? done : LONGEST_COPY;
        next = next < size - done ? next : size - done;
        memcpy(first + done, first, next);
    }
}

/* Reads an array into the memory from `zone` on, with guard zones around it. */
static void read_array(struct argument *a, unsigned char *zone)
{
    a->length = read_number();
    if (a->length > MEMORY)
        give_up("there is no memory for the arrays", "of this line");
    size_t size = a->length * types[a->type].width;
    size_t reach = ZONE + (size + ALIGNED - 1) / ALIGNED * ALIGNED + ZONE;
    if (reach > (size_t)(memory + MEMORY - zone))
        give_up("there is no memory for the arrays", "of this line");
    a->start = zone + ZONE;
    a->end = a->start + size;
    a->zone_end = zone + reach;
    memset(zone, GUARD, ZONE);
    memset(a->end, GUARD, (size_t)(a->zone_end - a->end));
    uint64_t fill = read_number();
    size_t given = read_number();
    if (given > a->length)
        give_up("more numbers are given than an array has", types[a->type].name);
    if (a->type == U8)
        read_bytes(a->start, given);
    for (size_t i = 0; a->type != U8 && i < given; i++)
        store(a, i, read_number());
    fill_from(a, given, fill);
}

static void copy_up_to(const unsigned char *end)
{
    size_t size = (size_t)(end - memory);
    for (size_t done = 0; done < size; done += LONGEST_COPY)
        memcpy(copy + done, memory + done, size - done < LONGEST_COPY ? size - done : LONGEST_COPY);
}

/* Reads the arguments of a line; gives their number. */
static size_t read_arguments(struct argument *arguments)
{
    char word[LONGEST_WORD];
    unsigned char *zone = memory;
    size_t count = 0;
    for (; read_word(word); count++) {
        if (count == MOST_ARGUMENTS)
            give_up("there are too many arguments", word);
        struct argument *a = &arguments[count];
        a->type = type_named(word);
        if (a->type == NUMBER) {
            a->number = read_number();
        } else {
            read_array(a, zone);
            zone = a->zone_end;
        }
    }
    copy_up_to(zone);
    return count;
}

/* ---- What came of a call */

static int is_as_it_was(const unsigned char *from, const unsigned char *to)
{
    return memcmp(from, copy + (from - memory), (size_t)(to - from)) == 0;
}

static uint64_t changed_bytes(const unsigned char *from, const unsigned char *to)
{
    uint64_t changed = 0;
    for (; !is_as_it_was(from, to); from++)
        changed += *from != GUARD;
    return changed;
}

static void put_element(const struct argument *a, uint64_t number)
{
    put_number(number, types[a->type].is_signed && (int64_t)number < 0);
}

/* The place from which all numbers of an array, which is not empty, are equal. */
static size_t equal_from(const struct argument *a)
{
    size_t last = a->length - 1, width = types[a->type].width, place = last;
    if (memcmp(a->start, a->start + width, last * width) == 0)
        return 0;
    while (load(a, place - 1) == load(a, last))
        place--;
    return place;
}

static void put_array(const struct argument *a)
{
    put(';');
    put(' ');
    put_number(changed_bytes(a->start - ZONE, a->start) + changed_bytes(a->end, a->zone_end), 0);
    if (is_as_it_was(a->start, a->end)) {
        put(' ');
        put('=');
        return;
    }
    size_t first_equal = equal_from(a);
    for (size_t i = 0; i <= first_equal; i++) {
        put(' ');
        put_element(a, load(a, i));
    }
    put('*');
    put_number(a->length - first_equal, 0);
}

/* ---- The functions */

static uint64_t call(const char *name, const struct argument *a)
{
    if (strcmp(name, "forward") == 0)
        return panbuckle_forward((void *)a[0].start, a[0].length, (void *)a[1].start, a[1].length, (void *)a[2].start, a[2].length,
                                 (void *)a[3].start);
    if (strcmp(name, "step") == 0)
        return panbuckle_step((void *)a[0].start, a[0].length, a[1].number, (void *)a[2].start, (void *)a[3].start);
    if (strcmp(name, "backward") == 0)
        return panbuckle_backward((void *)a[0].start, a[0].length, (void *)a[1].start, a[1].length, (void *)a[2].start);
    if (strcmp(name, "read_gdsii") == 0)
        return panbuckle_read_gdsii(a[0].start, a[0].length, a[1].start, a[1].length, (int32_t)a[2].number, (void *)a[3].start,
                                    (void *)a[4].start, a[4].length, (void *)a[5].start);
    give_up("there is no such function", name);
    return 0;
}

int main(void)
{
    char name[LONGEST_WORD];
    while (read_word(name)) {
        struct argument arguments[MOST_ARGUMENTS] = {0};
        size_t count = read_arguments(arguments);
        put_number(call(name, arguments), 0);
        for (size_t i = 0; i < count; i++)
            if (arguments[i].type != NUMBER)
                put_array(&arguments[i]);
        put('\n');
        write_output();
        if (peek() == '\n')
            input_at++;
    }
    return 0;
}
