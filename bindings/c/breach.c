/* A breach, end to end: equalize asks, depressurize answers. A hall and an airlock with a firelock between them; the airlock is open to space. It prints
 * what the Rust crate's example prints (bindings/rust/examples/breach.rs). */
#include "katmos.h"

#include <inttypes.h>
#include <stdio.h>
#include <stdlib.h>

enum { TURFS = 3, LINKS = 4, MIXTURES = 3, GASES = 2, ENABLED = 2, LOCKED = 2 };

/* The hall (10), the airlock (20), space (90): rows 0 to 2. */
static const uint32_t ids[TURFS] = {10, 20, 90};
static const uint8_t flags[TURFS] = {ENABLED, ENABLED, ENABLED};
static const uint8_t planetary[TURFS] = {0, 0, 0};
static const uint32_t mixtures[TURFS] = {0, 1, 2};
/* Links of the hall from 0 on, of the airlock from 1, of space from 3. */
static const uint32_t starts[TURFS + 1] = {0, 1, 3, LINKS};
static const uint32_t neighbours[LINKS] = {1, 0, 2, 1};
static const uint8_t link_flags[LINKS] = {LOCKED, LOCKED, 0, 0};
/* Oxygen and nitrogen of each; space neither loses nor gains. */
static const uint8_t immutable[MIXTURES] = {0, 0, 1};
static float amounts[MIXTURES * GASES] = {21.0f, 79.0f, 10.5f, 39.5f, 0.0f, 0.0f};

static const struct katmos_tables station = {
    .ids = ids, .ids_len = TURFS,
    .flags = flags, .flags_len = TURFS,
    .planetary = planetary, .planetary_len = TURFS,
    .mixtures = mixtures, .mixtures_len = TURFS,
    .starts = starts, .starts_len = TURFS + 1,
    .neighbours = neighbours, .neighbours_len = LINKS,
    .link_flags = link_flags, .link_flags_len = LINKS,
    .immutable = immutable, .immutable_len = MIXTURES,
    .gases = GASES, .amounts = amounts, .amounts_len = MIXTURES * GASES,
};

/* An event area for each call, since the requests are read while they are answered; one scratch for both. */
static uint8_t requests[KATMOS_EQUALIZE_EVENTS(TURFS, LINKS)];
static uint8_t records[KATMOS_DEPRESSURIZE_EVENTS(TURFS)];
static uint32_t words[KATMOS_WORDS(TURFS, LINKS, MIXTURES)];
static float floats[KATMOS_FLOATS(TURFS, LINKS)];

/* What katmos_read_event answers. */
enum { NUMBER, KIND, NEXT, FIELDS, ANSWER = FIELDS + 4 };

/* lend: an event area and the scratch. */
static struct katmos_areas lend(uint8_t *events, size_t len)
{
    struct katmos_areas areas = {
        .events = events, .events_len = len,
        .words = words, .words_len = sizeof words / sizeof *words,
        .floats = floats, .floats_len = sizeof floats / sizeof *floats,
    };
    return areas;
}

/* done: ends the program where a call was refused. */
static void done(const char *call, uint32_t number)
{
    if (number != KATMOS_DONE) {
        fprintf(stderr, "%s: refused by rule %" PRIu32 "\n", call, number);
        exit(1);
    }
}

/* print_events: a line for each record, as the lister prints it: the kind and its fields, an amount as the eight hex digits of its bits. */
static void print_events(const uint8_t *events, uint32_t bytes)
{
    static const int fields[] = {0, 1, 1, 4, 2, 2, 1, 4, 2};
    uint32_t event[ANSWER];
    for (uint32_t offset = 0;; offset = event[NEXT]) {
        done("read", katmos_read_event(events, bytes, offset, event));
        uint32_t kind = event[KIND];
        if (kind == KATMOS_END)
            break;
        int amount = kind == KATMOS_PRESSURE || kind == KATMOS_DIFFERENCE || kind == KATMOS_FLOOR_RIP;
        printf("%" PRIu32, kind);
        for (int field = 0; field < fields[kind]; field++)
            printf(amount && field == 1 ? " %08" PRIx32 : " %" PRIu32, event[FIELDS + field]);
        printf("\n");
    }
    printf("\n");
}

/* answer_request: empties the rooms around a turf. */
static void answer_request(uint32_t id)
{
    static const char *const outcomes[] = {"NoSpace", "Planet", "Vented"};
    struct katmos_areas areas = lend(records, sizeof records);
    struct katmos_walk walk = {.id = id, .limit = 100, .arrows = KATMOS_AS_TEXT};
    struct katmos_depressurized made = katmos_depressurize_on(&station, &walk, &areas);
    done("depressurize", made.number);
    printf("depressurize %" PRIu32 ": %s\n", id, outcomes[made.outcome]);
    print_events(records, made.bytes);
}

int main(void)
{
    static const uint32_t hot[] = {10};
    struct katmos_areas areas = lend(requests, sizeof requests);
    struct katmos_ask ask = {.hot = hot, .hot_len = 1, .threshold = 0.5f, .limit = UINT32_MAX, .allowance = UINT32_MAX};
    struct katmos_equalized made = katmos_equalize_on(&station, &ask, &areas);
    done("equalize", made.number);
    printf("equalize: %" PRIu32 " zones, %" PRIu32 " clock tests\n", made.zones, made.tests);
    print_events(requests, made.bytes);

    uint32_t event[ANSWER];
    for (uint32_t offset = 0; offset < made.bytes; offset = event[NEXT]) {
        done("read", katmos_read_event(requests, made.bytes, offset, event));
        if (event[KIND] == KATMOS_DEPRESSURIZE_WANTED)
            answer_request(event[FIELDS]);
    }
    printf("hall: %g moles\n", (double)(amounts[0] + amounts[1]));
    printf("airlock: %g moles\n", (double)(amounts[2] + amounts[3]));
    return 0;
}
