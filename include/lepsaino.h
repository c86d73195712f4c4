/*
 * The calls of the library for C, proved to meet the promises in docs/PROMISES.md for any bytes and any arguments. docs/RULES.md has the rules of a trace
 * buffer, README.md how the archive is made; examples/ has programs. The archive is for Linux on x86-64 or aarch64, and needs
 * nothing but memset. In C++ `struct` must stand before lepsaino_event and lepsaino_format where they are types: they are calls too.
 *
 * A length goes with each pointer. What a caller owes, and no proof can see:
 * - A pointer may be read for its length, and written for its length where it is not const. It may be null where the length is 0.
 * - A length is at most PTRDIFF_MAX, as that of every object in C is.
 * - Bytes lent to be written overlap no other bytes lent to the same call, and nothing else reads or writes them before it returns.
 * - Nothing writes bytes lent to be read before the call returns.
 * - The stack has room: 110 KB for lepsaino_listing_with_names, 18 KB for lepsaino_listing, 2 KB for any other call.
 *
 * A refusal is a number and a place; the table at the end of this file has them all. 0 as the number means that the call was accepted. After a refusal every
 * field but these two is 0, and no lent byte has changed. No call keeps a pointer, allocates, or reads or writes anything but what it is lent, so calls may run
 * on several threads at once as long as the above holds. Neither a name nor a text ends with a zero byte: its length is given beside it.
 */
#ifndef LEPSAINO_H
#define LEPSAINO_H

#include <stddef.h>
#include <stdint.h>

#if SIZE_MAX < UINT64_MAX
#error "lepsaino.h is for processors whose size_t has 64 bits"
#endif

/* The version, which docs/LANDINGS.md tells of; the command and the module for browsers give the same number, which stands here alone. */
#define LEPSAINO_VERSION 18

/* A dump, and a buffer that is formatted, has at most so many bytes; a mended copy always fits in so many. */
#define LEPSAINO_DUMP_MOST 65536

/* A name file has at most so many bytes, and its records end there at the latest. */
#define LEPSAINO_NAMES_MOST 65536

/*
 * In so many bytes any line fits with its line feed, any listing, and the text of any number; nothing is measured first then. The first two hold for the calls
 * without a name file only: a name from a file can have 65,528 bytes, and each byte six in the text.
 */
#define LEPSAINO_LINE_ROOM 774
#define LEPSAINO_LISTING_ROOM 1583604
#define LEPSAINO_NUMBER_ROOM 22

/* The size of a buffer with a name size, so many entries and so many slots, 1 or more: formatting makes just these. LEPSAINO_DUMP_MOST is its limit. */
#define LEPSAINO_BUFFER_SIZE(name_size, entries, slots) \
    ((size_t)48 + (16 + (size_t)(name_size)) * (size_t)(entries) + 32 * (size_t)(slots))

/* Thread pointers that are no thread's: of an event before any thread ran, and of one in an interrupt. 0 is that of an unused slot. */
#define LEPSAINO_POINTER_INIT UINT32_C(0xF0F0F0F0)
#define LEPSAINO_POINTER_ISR UINT32_C(0xFFFFFFFF)

#ifdef __cplusplus
extern "C" {
#endif

/* What a line, a listing or a call that writes gives. */
struct lepsaino_answer {
    uint32_t refusal;
    size_t place;
    size_t value;
};

/* What checking a dump gives: the byte order (1 for big-endian, 0 for little), the header's fields as they are stored, and the number of events. */
struct lepsaino_checked {
    uint32_t refusal;
    size_t place;
    uint32_t big;
    uint32_t id;
    uint32_t mask;
    uint32_t base;
    uint32_t registry_start;
    uint16_t name_size;
    uint32_t registry_end;
    uint32_t buffer_start;
    uint32_t buffer_end;
    uint32_t current;
    size_t events;
};

/* The eight words of a slot, as in the buffer. */
struct lepsaino_slot {
    uint32_t pointer; /* the thread's address, or one of the two pointers above */
    uint32_t field;   /* the priority field: of a thread its priority and preemption threshold, as ThreadX packs them; in an interrupt the address of the thread interrupted */
    uint32_t id;      /* the event's id: 1 to 1024 are ThreadX's, those above are users' */
    uint32_t stamp;   /* the timer's count; it counts only under the mask */
    uint32_t first;   /* four information words, which mean what the event says */
    uint32_t second;
    uint32_t third;
    uint32_t fourth;
};

enum lepsaino_context {
    LEPSAINO_INIT = 1,
    LEPSAINO_ISR = 2,
    LEPSAINO_THREAD = 3
};

/*
 * Whether there is a name, and whose: a live thread's, whose entry in the registry is in use; a removed thread's, whose entry is free; or one that lies in the
 * name file and not in the dump.
 */
enum lepsaino_name_kind {
    LEPSAINO_NAMELESS = 0,
    LEPSAINO_LIVE = 1,
    LEPSAINO_GONE = 2,
    LEPSAINO_FILED = 3
};

/*
 * One event. context is one of enum lepsaino_context, and name_kind one of enum lepsaino_name_kind. The name is the dump's bytes from name_at on, name_length of
 * them: they lie within the dump. Where name_kind is LEPSAINO_FILED they are the name file's, and lie within that. Where it is LEPSAINO_NAMELESS both are 0.
 * The last three are the event's own name, which lies in the name file: event_kind is LEPSAINO_FILED, or LEPSAINO_NAMELESS and then both others are 0. Without
 * a name file all three are 0.
 */
struct lepsaino_event {
    uint32_t refusal;
    size_t place;
    struct lepsaino_slot slot;
    uint64_t ticks;
    uint32_t context;
    uint32_t name_kind;
    size_t name_at;
    size_t name_length;
    uint32_t event_kind;
    size_t event_at;
    size_t event_length;
};

/*
 * What finding a name gives: kind is one of enum lepsaino_name_kind, and the name is the dump's bytes from at on, length of them; the name file's where kind is
 * LEPSAINO_FILED. Where kind is LEPSAINO_NAMELESS both are 0.
 */
struct lepsaino_name {
    uint32_t refusal;
    size_t place;
    uint32_t kind;
    size_t at;
    size_t length;
};

/* What mending gives: the copy's length, and what was mended, in six counts. */
struct lepsaino_mended {
    uint32_t refusal;
    size_t place;
    size_t length;   /* the copy's length */
    size_t missing;  /* slots zeroed as missing, or partly missing */
    size_t current;  /* 1 where current was bad and became the start */
    size_t types;    /* entries freed for a type that is not allowed */
    size_t ids;      /* used slots zeroed for the id 0 */
    size_t packed;   /* 1 where the used slots were packed */
    size_t moved;    /* used slots whose index packing changed */
};

/* What a listing goes by: the clock rate in Hz, the unit number and the first serial. */
struct lepsaino_reading {
    uint32_t rate;
    uint32_t unit;
    uint64_t serial;
};

/* What formatting is given: the byte order (0 for little-endian, any other number for big), the base address, the mask, the name size, the number of entries. */
struct lepsaino_format {
    uint32_t big;
    uint32_t base;
    uint32_t mask;
    uint16_t name_size;
    size_t entries;
};

/*
 * The types that an object may have: 1 to 14 and 21 to 28. 1 is a thread, 2 a timer, 3 a queue, 4 a semaphore, 5 a mutex, 6 a group of event flags, 7 a pool of
 * blocks, 8 a pool of bytes, 9 a medium, 10 a file, 11 an IP instance, 12 a pool of packets, 13 a TCP and 14 a UDP socket; 21 to 24 are of a USB host (a
 * device, an interface, an endpoint, a class), 25 to 28 the same of a USB device.
 */
#define LEPSAINO_TYPE_THREAD 1

/* What registering is given, but for the name. The reserved bytes count for a thread alone, whose priority ThreadX puts there. */
struct lepsaino_object {
    uint8_t object_type;
    uint32_t pointer;
    uint32_t parameter_one;
    uint32_t parameter_two;
    uint8_t reserved_one;
    uint8_t reserved_two;
};

/*
 * The state of a check in pieces: 176 bytes, of which 60 can hold bytes of the dump, and the rest are numbers and four bytes of padding. It is the caller's, who
 * begins with lepsaino_begin and otherwise only hands it on; the fields are here so that a C compiler knows its size. A state may be copied, kept and fed in two
 * ways.
 */
struct lepsaino_pieces {
    uint8_t header[48];  /* the header's bytes */
    size_t entries;      /* where the header says that the registry and the slots lie */
    size_t entry_size;
    size_t start;
    size_t slots;
    size_t slot_size;
    size_t current;
    uint8_t front[12];   /* the first bytes of the entry or slot that has not come whole */
    size_t came;         /* how many of its bytes have come */
    size_t entries_passed; /* of the entries that came whole: how many, and the lowest with a type that is not allowed */
    size_t bad_type;
    size_t slots_passed; /* of the slots that came whole: how many, and the lowest unused, used behind current, and used with the id 0 */
    size_t unused;
    size_t behind;
    size_t no_id;
    size_t total;        /* how many bytes have come, 65,537 at most */
};

/* Checks a dump: 1 to 13. */
struct lepsaino_checked lepsaino_check(const uint8_t *dump, size_t dump_length);

/* Begins the check of a dump in pieces: the state before any byte. */
struct lepsaino_pieces lepsaino_begin(void);

/* The state after one piece more, of any length, cut anywhere. Nothing is refused before the finish. */
struct lepsaino_pieces lepsaino_feed(struct lepsaino_pieces state, const uint8_t *piece, size_t piece_length);

/* What lepsaino_check gives on all the bytes that were fed. */
struct lepsaino_checked lepsaino_finish(struct lepsaino_pieces state);

/* One event by its position, from 0, oldest first: checks 1 to 13, then 25. */
struct lepsaino_event lepsaino_event(const uint8_t *dump, size_t dump_length, size_t position);

/* The name for a pointer: that of the lowest entry of a live thread with it, or else of the lowest of one that is gone. Checks 1 to 11. */
struct lepsaino_name lepsaino_find_name(const uint8_t *dump, size_t dump_length, uint32_t pointer);

/* The line of one event, with its line feed, at the front of out: checks 1 to 15, then 25, 16. The value is its length; out past it keeps its bytes. */
struct lepsaino_answer lepsaino_line(const uint8_t *dump, size_t dump_length, struct lepsaino_reading reading, size_t position, uint8_t *out, size_t out_length);

/* A line for each event, oldest first, at the front of out: checks 1 to 16. The value is their length; out past it keeps its bytes. */
struct lepsaino_answer lepsaino_listing(const uint8_t *dump, size_t dump_length, struct lepsaino_reading reading, uint8_t *out, size_t out_length);

/*
 * The same four with a name file, which names events and threads. It is records one after another, little-endian whatever the dump's byte order: a length of two
 * bytes, a kind of two bytes, and so many bytes. Kind 1 is an event's id, four bytes, and then a name to the record's end, of any bytes; kind 2 the same with a
 * thread's pointer; records of other kinds are stepped over. The first record for an id or for a pointer counts. A thread's name comes from the dump where it is
 * there, also a removed thread's, and otherwise from the file. An empty file is a file. The file's checks are 2 and 27, in that order; those before them are of
 * the dump and the reading, those behind them of the position and the room.
 */

/* One event by its position, with its own name too: checks 1 to 13, then 2 and 27 for the file, then 25. */
struct lepsaino_event lepsaino_event_with_names(const uint8_t *dump, size_t dump_length, const uint8_t *names, size_t names_length, size_t position);

/* The name for a pointer, whatever its context, in the dump or else in the file: checks 1 to 11, then 2 and 27 for the file. */
struct lepsaino_name lepsaino_find_name_with_names(const uint8_t *dump, size_t dump_length, const uint8_t *names, size_t names_length, uint32_t pointer);

/*
 * The line of one event, which has "event" and its own name or null behind "id": checks 1 to 15, then 2 and 27 for the file, then 25, 16. The value is its
 * length; out past it keeps its bytes.
 */
struct lepsaino_answer lepsaino_line_with_names(const uint8_t *dump, size_t dump_length, struct lepsaino_reading reading, size_t position,
    const uint8_t *names, size_t names_length, uint8_t *out, size_t out_length);

/* Such a line for each event, oldest first: checks 1 to 15, then 2 and 27 for the file, then 16. The value is their length; out past it keeps its bytes. */
struct lepsaino_answer lepsaino_listing_with_names(const uint8_t *dump, size_t dump_length, struct lepsaino_reading reading,
    const uint8_t *names, size_t names_length, uint8_t *out, size_t out_length);

/*
 * Writes one record of a name file at an offset, any number: for an event where thread is 0, for a thread where it is any other number, with the id or the
 * pointer and a name of any bytes. Checks 28, 16. The value is the record's length, 8 more than the name's; added to the offset it is where the next record goes.
 * No byte outside the record changes. The bytes lent may be more than LEPSAINO_NAMES_MOST, and are a name file up to where the last record ends.
 */
struct lepsaino_answer lepsaino_write_name(uint8_t *names, size_t names_length, size_t offset, uint32_t thread, uint32_t number,
    const uint8_t *name, size_t name_length);

/* The text of a number as in a line, at the front of out, and its length: bare digits below 2^53, in quotes from there on. 0, and nothing written, where there is no room. */
size_t lepsaino_number(uint8_t *out, size_t out_length, uint64_t number);

/*
 * Reads a dump and writes a mended copy, which passes every check, at the front of copy: checks 1 to 9, save 26 for the slots' end, then 16. The copy is the
 * dump's bytes up to the slots' end, changed in this order: a slot that is not wholly within the dump becomes zeros; a bad current becomes the first slot; an
 * entry in use with a type that is not allowed becomes free; a used slot with the event id 0 becomes zeros; where the used/unused rule is broken then, the used
 * slots are packed from the first slot on in the order from current, the rest become zeros, and current is set behind the last, or to the first slot where there
 * is none. copy past its length keeps its bytes.
 */
struct lepsaino_mended lepsaino_mend(const uint8_t *dump, size_t dump_length, uint8_t *copy, size_t copy_length);

/* Formats a buffer: checks 2, 4, 5, 24. The value is the number of slots; bytes left over stay. */
struct lepsaino_answer lepsaino_format(uint8_t *buffer, size_t buffer_length, struct lepsaino_format format);

/* Records an event: overwrites the slot at current, keeping of the stamp what is under the mask, and moves current on. Checks 1 to 10, 17, 18. The value is that slot's index. */
struct lepsaino_answer lepsaino_record(uint8_t *buffer, size_t buffer_length, struct lepsaino_slot slot);

/* Registers an object in the lowest free entry, its name cut to the name size: checks 1 to 10, 19, 23, 20, 21. The value is the entry's index. */
struct lepsaino_answer lepsaino_register(uint8_t *buffer, size_t buffer_length, struct lepsaino_object object, const uint8_t *name, size_t name_length);

/* Frees the lowest entry in use that has the pointer given: checks 1 to 10, 22. The value is the entry's index. */
struct lepsaino_answer lepsaino_remove(uint8_t *buffer, size_t buffer_length, uint32_t pointer);

#ifdef __cplusplus
}
#endif

/*
 * Refusals, by number; N stands for the place, which is the lowest such entry or slot, counted from 0, for 26 the count of missing bytes, and for 27 the lowest
 * such record's offset in the name file, counted in bytes. Where there is no N the place is 0. 26 is the last part of checks 7 and 9: the order is 1 to 7, 26, 8,
 * 9, 26, 10 and so on, first for the registry's end and then for the slots'. docs/RULES.md says what a person does next. The command reads its words here.
 *  1  the dump has fewer than 48 bytes
 *  2  the dump, the buffer or the name file has more than 65,536 bytes
 *  3  the first four bytes are not those of a trace buffer, in either byte order
 *  4  the mask is not a run of ones from the lowest bit on
 *  5  the name size is not a multiple of 4 from 4 to 64
 *  6  the registry does not start at offset 48
 *  7  the registry ends below offset 48, above 65,536 or within an entry
 *  8  the slots do not start where the registry ends
 *  9  the slots end at or before their start, above offset 65,536 or within a slot
 * 10  current lies before the slots, behind them or inside a slot, not at its start
 * 11  entry N is in use with a type that is not allowed
 * 12  slot N is used and must be unused, or unused and must be used
 * 13  slot N is used with the event id 0
 * 14  the clock rate is 0
 * 15  the unit number is above 16,777,215, or the first serial and the number of events add up to more than 1,099,511,627,776
 * 16  the output ends before the text, the copy or the record does
 * 17  the thread pointer to be written is 0
 * 18  the event id to be written is 0
 * 19  the type of the object is not allowed
 * 20  entry N is in use with that pointer already
 * 21  no entry is free
 * 22  no entry in use has that pointer
 * 23  the name given has a zero byte
 * 24  the buffer has no room for the header, the registry and one slot
 * 25  there is no event at that position
 * 26  the dump was cut; bytes missing up to the end of its registry or its slots: N
 * 27  the record at offset N of the name file runs past its end, or names an event or a thread and is shorter than 4 bytes
 * 28  the record would end past byte 65,536 of the name file
 */

#endif
