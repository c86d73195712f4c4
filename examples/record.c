/*
 * record formats a buffer, registers a thread, records four events in a ring of three slots, and prints the listing: the last three. It shows how C writes a trace:
 *     peer/build-library target/native && cc -Iinclude examples/record.c target/native/liblepsaino_c.a -o record
 * Exit status: 0 for a listing, 1 for a refusal, 2 for an output error.
 */
#include <inttypes.h>
#include <stdio.h>
#include <string.h>

#include "lepsaino.h"

#define NAME_SIZE 8
#define ENTRIES 1
#define SLOTS 3
#define COUNT(array) (sizeof(array) / sizeof((array)[0]))

/* Where the pump's thread lies in the driver's memory. */
#define PUMP UINT32_C(0x20001000)
#define VALVE UINT32_C(0x20002000)

static const struct lepsaino_slot EVENTS[] = {
    {.pointer = PUMP, .field = 16, .id = 4, .stamp = 65400},
    {.pointer = PUMP, .field = 16, .id = 5, .stamp = 65500, .first = 1, .second = 2, .third = 3, .fourth = 4},
    /* In an interrupt the priority field is the thread that was interrupted. The timer has 16 bits, and has gone round. */
    {.pointer = LEPSAINO_POINTER_ISR, .field = PUMP, .id = 1025, .stamp = 65556},
    {.pointer = VALVE, .field = 16, .id = 6, .stamp = 65556, .first = 7},
};

static uint8_t buffer[LEPSAINO_BUFFER_SIZE(NAME_SIZE, ENTRIES, SLOTS)];
static uint8_t text[SLOTS * LEPSAINO_LINE_ROOM];

/* Prints the refusal, where there is one. */
static int is_refused(struct lepsaino_answer answer)
{
    if (answer.refusal != 0)
        printf("%" PRIu32 " %zu\n", answer.refusal, answer.place);
    return answer.refusal != 0;
}

static int is_written(void)
{
    static const struct lepsaino_format format = {.base = UINT32_C(0x20000000), .mask = 0xFFFF, .name_size = NAME_SIZE, .entries = ENTRIES};
    static const struct lepsaino_object pump = {.object_type = LEPSAINO_TYPE_THREAD, .pointer = PUMP};
    static const char name[] = "pump";
    if (is_refused(lepsaino_format(buffer, sizeof buffer, format)))
        return 0;
    if (is_refused(lepsaino_register(buffer, sizeof buffer, pump, (const uint8_t *)name, strlen(name))))
        return 0;
    for (size_t at = 0; at < COUNT(EVENTS); at++)
        if (is_refused(lepsaino_record(buffer, sizeof buffer, EVENTS[at])))
            return 0;
    return 1;
}

int main(void)
{
    static const struct lepsaino_reading reading = {.rate = 3000000, .unit = 8192, .serial = 0};
    if (!is_written())
        return 1;
    struct lepsaino_answer answer = lepsaino_listing(buffer, sizeof buffer, reading, text, sizeof text);
    if (is_refused(answer))
        return 1;
    return fwrite(text, 1, answer.value, stdout) == answer.value && fflush(stdout) == 0 ? 0 : 2;
}
