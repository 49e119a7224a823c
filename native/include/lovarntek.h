/* Lovarntek's page-frame allocator, linked from C.
 *
 * A zone of n huge frames (1 to 65,536) and 1 to 64 CPUs stands in five tables, which the caller lends to each call as pointer and length. The library keeps
 * nothing between calls and takes no memory. Header, words and children may stand in memory that survives a power cut; trees and CPUs need not.
 *
 * An operation under way is a record of two words. The caller keeps it anywhere and lends it to the next call. A get, a put, a create and an open are
 * begun by one call and go on by further ones until the answer is not 1; a get and a put may also be begun and run in one call; close is one call.
 *
 * Left to the caller: no pointer is null (that of an empty table neither), and the tables and the record of one call do not overlap. Everything else is
 * checked, and answered by a number. A refused call stores nothing in the tables, in a run the refused step.
 *
 * The record is written by every call that is lent it: the next record after 1, the finished one (two zero words) after any other answer. A record of
 * another length than 2 is answered 8 where a table's wrong length would be, and left as it is.
 */
#ifndef LOVARNTEK_H
#define LOVARNTEK_H

#include <stddef.h>
#include <stdint.h>

#ifdef __cplusplus
extern "C" {
#endif

enum lovarntek_number {
    LOVARNTEK_DONE = 0,         /* with the block's first frame; create, open, close: frame 0 */
    LOVARNTEK_UNDER_WAY = 1,    /* begun, or the step made; the record goes on */
    LOVARNTEK_NO_ROOM = 2,      /* the last place of a get has been tried */
    LOVARNTEK_BAD_ORDER = 3,    /* order not 0 to 6 or 9 */
    LOVARNTEK_BAD_FRAME = 4,    /* frame at or above 512 n */
    LOVARNTEK_MISALIGNED = 5,   /* frame not a multiple of the block's frames: 2 to 64 for orders 1 to 6, 512 for order 9 */
    LOVARNTEK_NOT_TAKEN = 6,    /* put: a frame of the run is free, or the huge frame is not taken as one */
    LOVARNTEK_BAD_CPU = 7,      /* CPU at or above the CPU table's length */
    LOVARNTEK_BAD_BUFFERS = 8,  /* a table's or the record's length is wrong */
    LOVARNTEK_NOT_A_ZONE = 9,   /* the header is malformed */
    LOVARNTEK_CLOSED = 10,      /* the zone is closed */
    LOVARNTEK_BAD_RECORD = 11,  /* finished, of another operation, out of range, or no record at all */
    LOVARNTEK_DAMAGED = 12,     /* an entry read, or the one to be stored, breaks its layout */
    LOVARNTEK_NOT_SETTLED = 13, /* close: the counts do not add up */
    LOVARNTEK_BAD_SIZE = 14     /* create: n is 0 or above 65,536 */
};

typedef struct lovarntek_answer {
    uint64_t number;
    uint64_t frame; /* 0 unless the number is 0 */
} lovarntek_answer;

typedef struct lovarntek_ran {
    uint64_t number;
    uint64_t frame;
    uint64_t steps; /* how many steps the run made, a refused one among them; 0 where the record's length is wrong or the beginning is refused */
} lovarntek_ran;

/* ---- lengths, in entries */

#define LOVARNTEK_HEADER 1
#define LOVARNTEK_RECORD 2
#define LOVARNTEK_MOST_CPUS 64

/* 8 n, n, and n / 32 rounded up; 0 where n is 0 or above 65,536. */
uint64_t lovarntek_words(uint64_t n);
uint64_t lovarntek_children(uint64_t n);
uint64_t lovarntek_trees(uint64_t n);

/* ---- what every call is lent */

#define LOVARNTEK_LENT_HEADER const uint64_t *header, size_t headers
#define LOVARNTEK_STORED_HEADER uint64_t *header, size_t headers
#define LOVARNTEK_LOOKED_AT \
    const uint64_t *words, size_t words_length, const uint16_t *children, size_t children_length, \
    const uint16_t *trees, size_t trees_length, const uint64_t *cpus, size_t cpus_length
#define LOVARNTEK_STORED \
    uint64_t *words, size_t words_length, uint16_t *children, size_t children_length, \
    uint16_t *trees, size_t trees_length, uint64_t *cpus, size_t cpus_length
#define LOVARNTEK_UPPER_STORED \
    const uint64_t *words, size_t words_length, uint16_t *children, size_t children_length, \
    uint16_t *trees, size_t trees_length, uint64_t *cpus, size_t cpus_length
#define LOVARNTEK_RECORD_LENT uint64_t *record, size_t record_length

/* The same as one value, and how a variable of it is lent: lovarntek_get(LOVARNTEK_LEND(zone), record, LOVARNTEK_RECORD, cpu, order). */
typedef struct lovarntek_tables {
    uint64_t *header;
    size_t headers;
    uint64_t *words;
    size_t words_length;
    uint16_t *children;
    size_t children_length;
    uint16_t *trees;
    size_t trees_length;
    uint64_t *cpus;
    size_t cpus_length;
} lovarntek_tables;

#define LOVARNTEK_LEND(tables) \
    (tables).header, (tables).headers, (tables).words, (tables).words_length, (tables).children, (tables).children_length, \
    (tables).trees, (tables).trees_length, (tables).cpus, (tables).cpus_length

/* ---- create: the first step, a later one, up to max(1, fuel) later ones. n is given again at every step. */

lovarntek_answer lovarntek_create(LOVARNTEK_STORED_HEADER, LOVARNTEK_LOOKED_AT, LOVARNTEK_RECORD_LENT, uint64_t n);
lovarntek_answer lovarntek_create_step(LOVARNTEK_STORED_HEADER, LOVARNTEK_STORED, LOVARNTEK_RECORD_LENT, uint64_t n);
lovarntek_ran lovarntek_create_run(LOVARNTEK_STORED_HEADER, LOVARNTEK_STORED, LOVARNTEK_RECORD_LENT, uint64_t n, uint64_t fuel);

/* ---- open: the first step, a later one, up to max(1, fuel) later ones */

lovarntek_answer lovarntek_open(LOVARNTEK_STORED_HEADER, LOVARNTEK_LOOKED_AT, LOVARNTEK_RECORD_LENT);
lovarntek_answer lovarntek_open_step(LOVARNTEK_LENT_HEADER, LOVARNTEK_UPPER_STORED, LOVARNTEK_RECORD_LENT);
lovarntek_ran lovarntek_open_run(LOVARNTEK_LENT_HEADER, LOVARNTEK_UPPER_STORED, LOVARNTEK_RECORD_LENT, uint64_t fuel);

/* ---- close, and what close would answer, without its store */

lovarntek_answer lovarntek_close(LOVARNTEK_STORED_HEADER, LOVARNTEK_LOOKED_AT);
lovarntek_answer lovarntek_settled(LOVARNTEK_LENT_HEADER, LOVARNTEK_LOOKED_AT);

/* ---- gets and puts: begun, one step, up to max(1, fuel) steps. Order 0 is a base frame; orders 1 to 6 are runs of 2, 4, 8, 16, 32 and 64 base frames, naturally
 * aligned; order 9 is a huge frame. Part of a run may be put by itself, as a block of a smaller order. */

lovarntek_answer lovarntek_get(LOVARNTEK_LENT_HEADER, LOVARNTEK_LOOKED_AT, LOVARNTEK_RECORD_LENT, uint64_t cpu, uint64_t order);
lovarntek_answer lovarntek_put(LOVARNTEK_LENT_HEADER, LOVARNTEK_LOOKED_AT, LOVARNTEK_RECORD_LENT, uint64_t cpu, uint64_t frame, uint64_t order);
lovarntek_answer lovarntek_step(LOVARNTEK_LENT_HEADER, LOVARNTEK_STORED, LOVARNTEK_RECORD_LENT);

/* A run makes single steps, each as lovarntek_step; out of them it answers 1 with the record. Fuel 0 counts as 1: an answer 1 is a step made. Runs are for
 * memory without cuts: memory that survives a cut is driven by single steps. */
lovarntek_ran lovarntek_run(LOVARNTEK_LENT_HEADER, LOVARNTEK_STORED, LOVARNTEK_RECORD_LENT, uint64_t fuel);

/* Begun and run in one call: as lovarntek_get or lovarntek_put and, if that is answered 1, up to `fuel` steps as lovarntek_run's; fuel 0 is the beginning
 * alone. The record lent is not read; out of steps it goes on by any of the calls above. */
lovarntek_ran lovarntek_get_run(LOVARNTEK_LENT_HEADER, LOVARNTEK_STORED, LOVARNTEK_RECORD_LENT, uint64_t cpu, uint64_t order, uint64_t fuel);
lovarntek_ran lovarntek_put_run(
    LOVARNTEK_LENT_HEADER, LOVARNTEK_STORED, LOVARNTEK_RECORD_LENT, uint64_t cpu, uint64_t frame, uint64_t order, uint64_t fuel);

#ifdef __cplusplus
}
#endif

#endif
