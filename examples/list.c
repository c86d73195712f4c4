/*
 * list FILE RATE UNIT SERIAL prints the listing of a dump, or the refusal's number and place. It shows how C calls the library:
 *     peer/build-library target/native && cc -Iinclude examples/list.c target/native/liblepsaino_c.a -o list
 * Exit status: 0 for a listing, 1 for a refusal, 2 for a usage or file error.
 */
#include <errno.h>
#include <inttypes.h>
#include <stdbool.h>
#include <stdio.h>
#include <stdlib.h>
#include <string.h>

#include "lepsaino.h"

/* One byte more than a dump may have is room enough: a longer file is refused all the same. */
#define DUMP_ROOM (LEPSAINO_DUMP_MOST + 1)

static int fail(const char *what, const char *why)
{
    fprintf(stderr, "%s: %s\n", what, why);
    return 2;
}

static int refuse(uint32_t number, size_t place)
{
    printf("%" PRIu32 " %zu\n", number, place);
    return 1;
}

/* Takes digits alone, and a number of at most so much. */
static bool read_number(const char *text, uint64_t most, uint64_t *number)
{
    *number = 0;
    if (*text == 0)
        return false;
    for (; *text != 0; text++) {
        uint64_t digit = (uint64_t)(*text - '0');
        if (digit > 9 || *number > (most - digit) / 10)
            return false;
        *number = *number * 10 + digit;
    }
    return true;
}

static bool read_file(const char *path, uint8_t *dump, size_t *length)
{
    FILE *file = fopen(path, "rb");
    if (file == NULL)
        return false;
    *length = fread(dump, 1, DUMP_ROOM, file);
    bool sound = !ferror(file);
    int reason = errno;
    fclose(file);
    errno = reason;
    return sound;
}

static int list(const uint8_t *dump, size_t length, struct lepsaino_reading reading)
{
    struct lepsaino_checked checked = lepsaino_check(dump, length);
    if (checked.refusal != 0)
        return refuse(checked.refusal, checked.place);
    size_t room = checked.events * LEPSAINO_LINE_ROOM; /* LEPSAINO_LISTING_ROOM would do for any dump */
    uint8_t *out = malloc(room + 1); /* one more, since malloc(0) may give NULL */
    if (out == NULL)
        return fail("the listing", "no memory for it");
    struct lepsaino_answer answer = lepsaino_listing(dump, length, reading, out, room);
    size_t written = fwrite(out, 1, answer.value, stdout);
    free(out);
    if (answer.refusal != 0)
        return refuse(answer.refusal, answer.place);
    if (written != answer.value || fflush(stdout) != 0)
        return fail("standard output", strerror(errno));
    return 0;
}

int main(int count, char **arguments)
{
    static uint8_t dump[DUMP_ROOM];
    size_t length = 0;
    uint64_t rate, unit, serial;
    if (count != 5)
        return fail("usage", "list FILE RATE UNIT SERIAL");
    if (!read_number(arguments[2], UINT32_MAX, &rate))
        return fail("RATE", "no decimal number from 0 to 4294967295");
    if (!read_number(arguments[3], UINT32_MAX, &unit))
        return fail("UNIT", "no decimal number from 0 to 4294967295");
    if (!read_number(arguments[4], UINT64_MAX, &serial))
        return fail("SERIAL", "no decimal number from 0 to 18446744073709551615");
    if (!read_file(arguments[1], dump, &length))
        return fail(arguments[1], strerror(errno));
    struct lepsaino_reading reading = {(uint32_t)rate, (uint32_t)unit, serial};
    return list(dump, length, reading);
}
