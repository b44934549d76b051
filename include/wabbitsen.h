/* Paths and sorting lines for C and C++ on x86-64 Linux: link libwabbitsen.a, which `./library build` writes to
 * target/staticlib. "Document 01" is the specification: what each call does, and the numbers of refusal.
 *
 * Every function answers for all values of what it is given, damaged tables, records and lists included: nothing need be tested
 * before. What no proof reaches, and the caller must see to:
 *   - a pointer points to as many objects as are said, aligned and initialised (zeros will do); it is not null, not even beside a
 *     length of 0;
 *   - what is lent to one call does not overlap, and nobody else touches it before the call returns;
 *   - there is stack: 1 MiB is enough for every call, as measured on programs that make them all.
 * No function keeps a pointer, allocates, or has a state of its own: calls that are lent different objects may run at once. */
#ifndef WABBITSEN_H
#define WABBITSEN_H

#include <stddef.h>
#include <stdint.h>

#ifdef __cplusplus
extern "C" {
#endif

/* The fewest entries that a waiting list may have; those from 64 on are never touched. */
#define WABBITSEN_ENTRIES 64

/* The table of a path: compiled by wabbitsen_compile, and only read by wabbitsen_open. Position p is bit p - 1 of a set. */
typedef struct wabbitsen_table {
    size_t positions;       /* the names as written, 1 to 64 */
    size_t names;           /* the distinct ones, 1 to 32 */
    uint64_t start;         /* the set of positions that a history can begin with */
    uint8_t operations[64]; /* the operation of each position: its name's number, from 0, in order of first appearance */
    uint64_t rows[64];      /* the set of positions that can follow each position */
    uint8_t lengths[32];    /* the length of each name */
    uint8_t bytes[512];     /* the bytes of the names, name i from 16 * i on */
    uint8_t mark;           /* 1 if no name stands at two positions */
} wabbitsen_table;

/* An entry of the waiting list: who waits, and for which operation. The record's count says how many are in use, from the front. */
typedef struct wabbitsen_entry {
    uint16_t terminal;
    uint8_t operation;
} wabbitsen_entry;

/* The session record of one line. What it holds before wabbitsen_open does not matter. */
typedef struct wabbitsen_record {
    wabbitsen_table table;
    uint64_t set;      /* the positions that the line can be at */
    size_t waiting;    /* the entries of the list in use */
    uint16_t terminal; /* who runs; it says nothing while `running` is 0 */
    uint8_t running;   /* 0 while the line is free */
} wabbitsen_record;

/* What a call replies. Every cell that says nothing is 0. */
typedef struct wabbitsen_reply {
    size_t value;      /* compile, refused: the place in the text; ask, delayed: the entries ahead; finish: the entries examined;
                          withdraw: the place that the entry had, from 0 */
    uint16_t terminal; /* finish: who is granted, */
    uint8_t operation; /*         and which operation */
    uint8_t number;    /* the number of refusal, or 0 if the call is served */
    uint8_t granted;   /* ask: 1 if it is granted, 0 if it is delayed; finish: 1 if somebody is granted */
} wabbitsen_reply;

#if defined(__STDC_VERSION__) && __STDC_VERSION__ >= 201112L
_Static_assert(sizeof(size_t) == 8, "64-bit sizes");
_Static_assert(offsetof(wabbitsen_table, operations) == 24, "layout");
_Static_assert(offsetof(wabbitsen_table, rows) == 88, "layout");
_Static_assert(offsetof(wabbitsen_table, lengths) == 600, "layout");
_Static_assert(offsetof(wabbitsen_table, bytes) == 632, "layout");
_Static_assert(offsetof(wabbitsen_table, mark) == 1144, "layout");
_Static_assert(sizeof(wabbitsen_table) == 1152, "layout");
_Static_assert(offsetof(wabbitsen_entry, operation) == 2, "layout");
_Static_assert(sizeof(wabbitsen_entry) == 4, "layout");
_Static_assert(offsetof(wabbitsen_record, set) == 1152, "layout");
_Static_assert(offsetof(wabbitsen_record, waiting) == 1160, "layout");
_Static_assert(offsetof(wabbitsen_record, terminal) == 1168, "layout");
_Static_assert(offsetof(wabbitsen_record, running) == 1170, "layout");
_Static_assert(sizeof(wabbitsen_record) == 1176, "layout");
_Static_assert(offsetof(wabbitsen_reply, terminal) == 8, "layout");
_Static_assert(offsetof(wabbitsen_reply, operation) == 10, "layout");
_Static_assert(offsetof(wabbitsen_reply, number) == 11, "layout");
_Static_assert(offsetof(wabbitsen_reply, granted) == 12, "layout");
_Static_assert(sizeof(wabbitsen_reply) == 16, "layout");
#endif

/* From the text of a path, `length` bytes, to its table. Refused (1 to 7): the place is in `value`, and the table is all zeros. */
wabbitsen_reply wabbitsen_compile(const uint8_t *text, size_t length, wabbitsen_table *table);

/* The calls. `list` has `entries` entries. A refused call (8 to 15) leaves every cell of record and list as it was. */

/* A session over a table is opened: the line is free, and nobody waits. The table is copied into the record. */
wabbitsen_reply wabbitsen_open(wabbitsen_record *record, wabbitsen_entry *list, size_t entries, const wabbitsen_table *table);

/* A terminal asks for the operation of a name of `length` bytes, and is granted or delayed. */
wabbitsen_reply wabbitsen_ask(wabbitsen_record *record, wabbitsen_entry *list, size_t entries, uint16_t terminal, const uint8_t *name,
                              size_t length);

/* A terminal finishes what it runs, and the line is handed on or is free. */
wabbitsen_reply wabbitsen_finish(wabbitsen_record *record, wabbitsen_entry *list, size_t entries, uint16_t terminal);

/* A terminal withdraws what it waits for. */
wabbitsen_reply wabbitsen_withdraw(wabbitsen_record *record, wabbitsen_entry *list, size_t entries, uint16_t terminal);

/* What linerun prints of an input of `length` bytes, in front of `out`, as far as its `room` bytes go; answers how many bytes that is. No
 * input gives more than WABBITSEN_TRANSCRIPT bytes. */
#define WABBITSEN_TRANSCRIPT 720914
size_t wabbitsen_transcript(const uint8_t *input, size_t length, uint8_t *out, size_t room);

#ifdef __cplusplus
}
#endif

#endif
