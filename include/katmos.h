/* The air of a space station game: equalize, depressurize and the planet walk, proved. docs/PROMISES.md says what each call promises.
 *
 * Every call does its own checking. An ill-formed table gets a refusal number with every other count zero, and gas, event area and scratch
 * then hold what they held before. A call ends, keeps to the areas that it is lent, and keeps nothing between calls, so several threads
 * may call at once, each with areas of its own. equalize's recursion is as deep as the board: lend it a thread with 2 MiB of stack.
 *
 * Areas don't overlap. An area that a call writes (amounts of the two calls that change them, events, words, floats, answer) must share no byte
 * with another area or a table of that call; tables that are only read may share theirs. No call tests this. Where areas overlap nothing is
 * promised, not even that the call ends or keeps to them: a table may change after it was tested. Take it for undefined behaviour. The Rust crate,
 * bindings/rust, can't: its types give every area a borrow of its own.
 *
 * A NaN that is lent, in amounts of a refused call or in floats, stays a NaN by proof; that it keeps its sign and its payload is tested.
 *
 * The calls come twice. `katmos_equalize_on`, `katmos_depressurize_on` and `katmos_planet_walk_on` take structs that a host fills once, by name, and
 * answer a struct; begin there. They are these lines and nothing else: they hand what they are given to `katmos_equalize`, `katmos_depressurize` and
 * `katmos_planet_walk`, the library's own functions, for languages that read no C header. bindings/c/breach.c is a whole program.
 *
 * N turfs are rows 0..N-1: ids (strictly ascending), flags (bit 0 or 1: enabled), a planetary byte (not 0: planetary), the row of its mixture.
 * E links: N+1 starts, then for each link the neighbour's row and flags (bit 1: a firelock). M mixtures: an immutable byte (not 0: immutable)
 * and `gases` amounts each. N is the length of ids, E of neighbours, M of immutable.
 */
#ifndef KATMOS_H
#define KATMOS_H

#include <stddef.h>
#include <stdint.h>

#ifdef __cplusplus
extern "C" {
#endif

/* The first number of every answer, which is returned too. */
enum {
    KATMOS_DONE = 0,
    KATMOS_SIZES = 1,     /* a size outside its limits */
    KATMOS_TABLES = 2,    /* a table's length doesn't fit N, E, M or the gases */
    KATMOS_IDS = 3,       /* ids not strictly ascending */
    KATMOS_LINKS = 4,     /* starts, neighbours or mixture rows; a turf linked to itself; a neighbour twice in one row */
    KATMOS_AMOUNTS = 5,   /* an amount or the threshold outside its range */
    KATMOS_HOT = 6,       /* hot ids not strictly ascending */
    KATMOS_ROOM = 7,      /* event area or scratch too short */
    KATMOS_RECORD = 8     /* a bad event record or offset; of katmos_write_event, a kind that there isn't */
};

/* Kinds of events; a record's fields stand in this order. An amount is the bits of its float. */
enum {
    KATMOS_END = 0,                   /* no record: the offset is the area's end */
    KATMOS_DEPRESSURIZE_WANTED = 1,   /* id */
    KATMOS_PLANET_WANTED = 2,         /* id */
    KATMOS_PRESSURE = 3,              /* zone, amount, from, to: the giver's side, with the planned amount */
    KATMOS_FIRELOCK = 4,              /* id, neighbour */
    KATMOS_TARGET = 5,                /* id, target */
    KATMOS_HIGH_PRESSURE = 6,         /* id */
    KATMOS_DIFFERENCE = 7,            /* id, amount, from, to */
    KATMOS_FLOOR_RIP = 8              /* id, amount */
};

/* What depressurize came to. */
enum {
    KATMOS_NO_SPACE = 0,   /* unknown id, or no space within the limit */
    KATMOS_PLANET = 1,     /* a planetary turf was met */
    KATMOS_VENTED = 2
};

/* Where the arrows of depressurize's records of kind KATMOS_DIFFERENCE run. With KATMOS_AS_TEXT, as the original Rust has it, from a turf to itself. With
 * anything else, so with KATMOS_TO_SPACE, towards space: the first record of a turf has an arrow from it to the next turf on its way; where that is
 * space, the second has the same arrow and space's id. All else is the same, the room included. */
enum {
    KATMOS_AS_TEXT = 0,
    KATMOS_TO_SPACE = 1   /* or any other number but 0 */
};

/* Limits. */
#define KATMOS_MOST_TURFS 4096u
#define KATMOS_MOST_MIXTURES 4096u
#define KATMOS_MOST_LINKS 24576u
#define KATMOS_MOST_GASES 64u
#define KATMOS_MOST_HOT 4096u
#define KATMOS_MOST_TURNS 65536u

/* How long the areas must be at least, in elements. Scratch may hold anything; after KATMOS_DONE these first elements of it are zero. */
#define KATMOS_EQUALIZE_EVENTS(n, e) (20u * (size_t)(e) + 16u * (size_t)(n))
#define KATMOS_DEPRESSURIZE_EVENTS(n) (84u * (size_t)(n))
#define KATMOS_PLANET_WALK_EVENTS(n) (12u * (size_t)(n))
#define KATMOS_WORDS(n, e, m) (16u * (size_t)(n) + 4u * (size_t)(e) + 2u * (size_t)(m) + 16u)
#define KATMOS_FLOATS(n, e) (4u * (size_t)(n) + 2u * (size_t)(e))

/* What every call is lent: the tables, each with the number of its elements, and the amounts. Only the amounts are written to, by equalize and
 * depressurize. A pointer isn't null, but for neighbours and link_flags where there are no links. Set a struct to zero or initialize it by name, so that a
 * field that is added later is 0: that will mean what it meant before. */
struct katmos_tables {
    const uint32_t *ids;
    size_t ids_len;
    const uint8_t *flags;
    size_t flags_len;
    const uint8_t *planetary;
    size_t planetary_len;
    const uint32_t *mixtures;
    size_t mixtures_len;
    const uint32_t *starts;
    size_t starts_len;
    const uint32_t *neighbours;
    size_t neighbours_len;
    const uint8_t *link_flags;
    size_t link_flags_len;
    const uint8_t *immutable;
    size_t immutable_len;
    uint32_t gases;
    float *amounts;
    size_t amounts_len;
};

/* The areas that every call is lent: events, and scratch. They may be longer than the room that the call needs. */
struct katmos_areas {
    uint8_t *events;
    size_t events_len;
    uint32_t *words;
    size_t words_len;
    float *floats;
    size_t floats_len;
};

/* What equalize is asked. hot and turns may be null where there are none. */
struct katmos_ask {
    const uint32_t *hot; /* ids to begin at, strictly ascending; one that no turf has is passed over */
    size_t hot_len;
    const uint32_t *turns; /* which of the unfinished zones finishes its next turf; none: zone after zone */
    size_t turns_len;
    float threshold;    /* a hot turf whose neighbours are all nearer than this is passed over */
    uint32_t limit;     /* a zone with a planetary turf ends after so many turfs */
    uint32_t allowance; /* how many clock tests may be made */
};

/* What the two walks are asked. */
struct katmos_walk {
    uint32_t id;     /* the turf to begin at */
    uint32_t limit;  /* a turf whose place among those that are met exceeds this leads no further */
    uint32_t arrows; /* of depressurize: KATMOS_AS_TEXT or KATMOS_TO_SPACE; the planet walk draws none and ignores it */
};

/* The answers. Where the number isn't KATMOS_DONE all else is 0. `bytes` is how long the events are that were written. */
struct katmos_equalized {
    uint32_t number;
    uint32_t cancelled;
    uint32_t processed;
    uint32_t tests;
    uint32_t zones;
    uint32_t apart;
    uint32_t bytes;
};

struct katmos_depressurized {
    uint32_t number;
    uint32_t outcome;
    uint32_t bytes;
};

struct katmos_planet_walked {
    uint32_t number;
    uint32_t bytes;
};

/* The library's own functions. A pointer and the number of its elements go together. A table without elements may have any pointer that isn't null.
 *
 * Evens out the gas of the rooms around the hot ones. Zones are finished by `turns`: each entry picks one of the unfinished zones; with no turns
 * zone after zone. `allowance` is how many clock tests may be made.
 * answer: number, cancelled, processed, tests, zones, apart, bytes of events written. */
uint32_t katmos_equalize(
    const uint32_t *ids, size_t ids_len, const uint8_t *flags, size_t flags_len,
    const uint8_t *planetary, size_t planetary_len, const uint32_t *mixtures, size_t mixtures_len,
    const uint32_t *starts, size_t starts_len, const uint32_t *neighbours, size_t neighbours_len,
    const uint8_t *link_flags, size_t link_flags_len, const uint8_t *immutable, size_t immutable_len,
    uint32_t gases, float *amounts, size_t amounts_len,
    const uint32_t *hot, size_t hot_len, const uint32_t *turns, size_t turns_len,
    float threshold, uint32_t limit, uint32_t allowance,
    uint8_t *events, size_t events_len, uint32_t *words, size_t words_len, float *floats, size_t floats_len,
    uint32_t answer[7]);

/* Empties the rooms around the turf `id` towards space. `arrows` is KATMOS_AS_TEXT or KATMOS_TO_SPACE. answer: number, outcome, bytes. */
uint32_t katmos_depressurize(
    const uint32_t *ids, size_t ids_len, const uint8_t *flags, size_t flags_len,
    const uint8_t *planetary, size_t planetary_len, const uint32_t *mixtures, size_t mixtures_len,
    const uint32_t *starts, size_t starts_len, const uint32_t *neighbours, size_t neighbours_len,
    const uint8_t *link_flags, size_t link_flags_len, const uint8_t *immutable, size_t immutable_len,
    uint32_t gases, float *amounts, size_t amounts_len, uint32_t id, uint32_t limit, uint32_t arrows,
    uint8_t *events, size_t events_len, uint32_t *words, size_t words_len, float *floats, size_t floats_len,
    uint32_t answer[3]);

/* Looks for firelocks from the turf `id` towards a planet. answer: number, bytes. */
uint32_t katmos_planet_walk(
    const uint32_t *ids, size_t ids_len, const uint8_t *flags, size_t flags_len,
    const uint8_t *planetary, size_t planetary_len, const uint32_t *mixtures, size_t mixtures_len,
    const uint32_t *starts, size_t starts_len, const uint32_t *neighbours, size_t neighbours_len,
    const uint8_t *link_flags, size_t link_flags_len, const uint8_t *immutable, size_t immutable_len,
    uint32_t gases, const float *amounts, size_t amounts_len, uint32_t id, uint32_t limit,
    uint8_t *events, size_t events_len, uint32_t *words, size_t words_len, float *floats, size_t floats_len,
    uint32_t answer[2]);

/* Reads the record at `offset` of the first events_len bytes. answer: number, kind, next offset, four fields; those that the kind hasn't are 0. At
 * the end the kind is KATMOS_END and all else 0. Of a longer area only the first 2^32 - 1 bytes count: there is its end, and a record that passes
 * it is KATMOS_RECORD. */
uint32_t katmos_read_event(const uint8_t *events, size_t events_len, uint32_t offset, uint32_t answer[7]);

/* Writes a record at `offset`; fields that the kind hasn't are ignored. answer: number, next offset. Tested in this order: KATMOS_RECORD for a
 * kind that there isn't, KATMOS_AMOUNTS for an amount that isn't finite, KATMOS_ROOM for a record that passes the end, or the first 2^32 - 1 bytes
 * of a longer area. A refusal writes nothing. */
uint32_t katmos_write_event(
    uint32_t kind, uint32_t f0, uint32_t f1, uint32_t f2, uint32_t f3,
    uint8_t *events, size_t events_len, uint32_t offset, uint32_t answer[2]);

/* The tables and the areas as the library's functions take them. */
#define KATMOS_TABLES_OF(t) \
    (t)->ids, (t)->ids_len, (t)->flags, (t)->flags_len, (t)->planetary, (t)->planetary_len, (t)->mixtures, (t)->mixtures_len, \
    (t)->starts, (t)->starts_len, (t)->neighbours_len ? (t)->neighbours : (t)->ids, (t)->neighbours_len, \
    (t)->link_flags_len ? (t)->link_flags : (t)->flags, (t)->link_flags_len, (t)->immutable, (t)->immutable_len, \
    (t)->gases, (t)->amounts, (t)->amounts_len
#define KATMOS_AREAS_OF(a) (a)->events, (a)->events_len, (a)->words, (a)->words_len, (a)->floats, (a)->floats_len

/* Evens out the gas of the rooms around the hot ones. */
static inline struct katmos_equalized katmos_equalize_on(
    const struct katmos_tables *tables, const struct katmos_ask *ask, const struct katmos_areas *areas)
{
    struct katmos_equalized made;
    uint32_t answer[7];
    katmos_equalize(
        KATMOS_TABLES_OF(tables), ask->hot_len ? ask->hot : tables->ids, ask->hot_len, ask->turns_len ? ask->turns : tables->ids, ask->turns_len,
        ask->threshold, ask->limit, ask->allowance, KATMOS_AREAS_OF(areas), answer);
    made.number = answer[0];
    made.cancelled = answer[1];
    made.processed = answer[2];
    made.tests = answer[3];
    made.zones = answer[4];
    made.apart = answer[5];
    made.bytes = answer[6];
    return made;
}

/* Empties the rooms around a turf towards space. */
static inline struct katmos_depressurized katmos_depressurize_on(
    const struct katmos_tables *tables, const struct katmos_walk *walk, const struct katmos_areas *areas)
{
    struct katmos_depressurized made;
    uint32_t answer[3];
    katmos_depressurize(KATMOS_TABLES_OF(tables), walk->id, walk->limit, walk->arrows, KATMOS_AREAS_OF(areas), answer);
    made.number = answer[0];
    made.outcome = answer[1];
    made.bytes = answer[2];
    return made;
}

/* Looks for firelocks from a turf towards a planet. */
static inline struct katmos_planet_walked katmos_planet_walk_on(
    const struct katmos_tables *tables, const struct katmos_walk *walk, const struct katmos_areas *areas)
{
    struct katmos_planet_walked made;
    uint32_t answer[2];
    katmos_planet_walk(KATMOS_TABLES_OF(tables), walk->id, walk->limit, KATMOS_AREAS_OF(areas), answer);
    made.number = answer[0];
    made.bytes = answer[1];
    return made;
}

#undef KATMOS_TABLES_OF
#undef KATMOS_AREAS_OF

#ifdef __cplusplus
}
#endif

#endif
