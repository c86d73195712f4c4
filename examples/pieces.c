/*
 * pieces [SEED] checks a dump that comes by standard input, 64 bytes at a time, and prints the refusal's number and place; of a sound dump the byte order, the
 * header's fields and the number of events. With a SEED the pieces have 0 to 64 bytes by chance. It shows how C checks a dump that is nowhere held whole:
 *     peer/build-library target/native && cc -Iinclude examples/pieces.c target/native/liblepsaino_c.a -o pieces
 * Exit status: 0 for a sound dump, 1 for a refusal, 2 for a usage, input or output error.
 */
#include <errno.h>
#include <inttypes.h>
#include <stdbool.h>
#include <stdio.h>
#include <string.h>

#include "lepsaino.h"

#define LONGEST_PIECE 64

static int fail(const char *what, const char *why)
{
    fprintf(stderr, "%s: %s\n", what, why);
    return 2;
}

/* Takes digits alone, and a number of 64 bits. */
static bool read_number(const char *text, uint64_t *number)
{
    *number = 0;
    if (*text == 0)
        return false;
    for (; *text != 0; text++) {
        uint64_t digit = (uint64_t)(*text - '0');
        if (digit > 9 || *number > (UINT64_MAX - digit) / 10)
            return false;
        *number = *number * 10 + digit;
    }
    return true;
}

/* The generator splitmix64: the seed moves on, and the number drawn is a mixture of its bits. */
static uint64_t draw(uint64_t *seed)
{
    *seed += 0x9E3779B97F4A7C15;
    uint64_t mixed = *seed;
    mixed = (mixed ^ (mixed >> 30)) * 0xBF58476D1CE4E5B9;
    mixed = (mixed ^ (mixed >> 27)) * 0x94D049BB133111EB;
    return mixed ^ (mixed >> 31);
}

/* Without a seed every piece but the last is the longest. The dump ends where fewer bytes come than were asked for. */
static bool check_input(uint64_t *seed, struct lepsaino_checked *checked)
{
    uint8_t piece[LONGEST_PIECE];
    size_t asked, length;
    struct lepsaino_pieces state = lepsaino_begin();
    do {
        asked = seed == NULL ? LONGEST_PIECE : (size_t)(draw(seed) % (LONGEST_PIECE + 1));
        length = fread(piece, 1, asked, stdin);
        state = lepsaino_feed(state, piece, length);
    } while (length == asked);
    *checked = lepsaino_finish(state);
    return !ferror(stdin);
}

static void print_sound(struct lepsaino_checked checked)
{
    printf("%s %" PRIu32 " %" PRIu32 " %" PRIu32, checked.big ? "big" : "little", checked.id, checked.mask, checked.base);
    printf(" %" PRIu32 " %" PRIu16 " %" PRIu32, checked.registry_start, checked.name_size, checked.registry_end);
    printf(" %" PRIu32 " %" PRIu32 " %" PRIu32, checked.buffer_start, checked.buffer_end, checked.current);
    printf(" %zu\n", checked.events);
}

int main(int count, char **arguments)
{
    uint64_t seed = 0;
    struct lepsaino_checked checked;
    if (count > 2)
        return fail("usage", "pieces [SEED]");
    if (count == 2 && !read_number(arguments[1], &seed))
        return fail("SEED", "no decimal number from 0 to 18446744073709551615");
    setvbuf(stdin, NULL, _IONBF, 0); /* no more of the dump is held than a piece */
    if (!check_input(count == 2 ? &seed : NULL, &checked))
        return fail("standard input", strerror(errno));
    if (checked.refusal == 0)
        print_sound(checked);
    else
        printf("%" PRIu32 " %zu\n", checked.refusal, checked.place);
    if (fflush(stdout) != 0 || ferror(stdout))
        return fail("standard output", strerror(errno));
    return checked.refusal != 0;
}
