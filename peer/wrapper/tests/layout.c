/* Prints where a C compiler puts the fields of the header's structs, and the numbers of the contexts and of the kinds of name. */
#include <stdio.h>

#include "lepsaino.h"

#define SIZE(name) printf(#name " %zu\n", sizeof(struct lepsaino_##name))
#define FIELD(name, field) \
    printf(#name "." #field " %zu %zu\n", offsetof(struct lepsaino_##name, field), sizeof(((struct lepsaino_##name *)0)->field))

static void answers(void)
{
    SIZE(answer);
    FIELD(answer, refusal);
    FIELD(answer, place);
    FIELD(answer, value);
    SIZE(checked);
    FIELD(checked, refusal);
    FIELD(checked, place);
    FIELD(checked, big);
    FIELD(checked, id);
    FIELD(checked, mask);
    FIELD(checked, base);
    FIELD(checked, registry_start);
    FIELD(checked, name_size);
    FIELD(checked, registry_end);
    FIELD(checked, buffer_start);
    FIELD(checked, buffer_end);
    FIELD(checked, current);
    FIELD(checked, events);
    SIZE(name);
    FIELD(name, refusal);
    FIELD(name, place);
    FIELD(name, kind);
    FIELD(name, at);
    FIELD(name, length);
    SIZE(mended);
    FIELD(mended, refusal);
    FIELD(mended, place);
    FIELD(mended, length);
    FIELD(mended, missing);
    FIELD(mended, current);
    FIELD(mended, types);
    FIELD(mended, ids);
    FIELD(mended, packed);
    FIELD(mended, moved);
}

static void events(void)
{
    SIZE(slot);
    FIELD(slot, pointer);
    FIELD(slot, field);
    FIELD(slot, id);
    FIELD(slot, stamp);
    FIELD(slot, first);
    FIELD(slot, second);
    FIELD(slot, third);
    FIELD(slot, fourth);
    SIZE(event);
    FIELD(event, refusal);
    FIELD(event, place);
    FIELD(event, slot);
    FIELD(event, ticks);
    FIELD(event, context);
    FIELD(event, name_kind);
    FIELD(event, name_at);
    FIELD(event, name_length);
    FIELD(event, event_kind);
    FIELD(event, event_at);
    FIELD(event, event_length);
}

static void arguments(void)
{
    SIZE(reading);
    FIELD(reading, rate);
    FIELD(reading, unit);
    FIELD(reading, serial);
    SIZE(format);
    FIELD(format, big);
    FIELD(format, base);
    FIELD(format, mask);
    FIELD(format, name_size);
    FIELD(format, entries);
    SIZE(object);
    FIELD(object, object_type);
    FIELD(object, pointer);
    FIELD(object, parameter_one);
    FIELD(object, parameter_two);
    FIELD(object, reserved_one);
    FIELD(object, reserved_two);
}

static void states(void)
{
    SIZE(pieces);
    FIELD(pieces, header);
    FIELD(pieces, entries);
    FIELD(pieces, entry_size);
    FIELD(pieces, start);
    FIELD(pieces, slots);
    FIELD(pieces, slot_size);
    FIELD(pieces, current);
    FIELD(pieces, front);
    FIELD(pieces, came);
    FIELD(pieces, entries_passed);
    FIELD(pieces, bad_type);
    FIELD(pieces, slots_passed);
    FIELD(pieces, unused);
    FIELD(pieces, behind);
    FIELD(pieces, no_id);
    FIELD(pieces, total);
}

int main(void)
{
    answers();
    events();
    arguments();
    states();
    printf("contexts %d %d %d\n", LEPSAINO_INIT, LEPSAINO_ISR, LEPSAINO_THREAD);
    printf("kinds of name %d %d %d %d\n", LEPSAINO_NAMELESS, LEPSAINO_LIVE, LEPSAINO_GONE, LEPSAINO_FILED);
    return 0;
}
