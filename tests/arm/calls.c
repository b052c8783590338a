/* Every call of fstf.h from plain C, in any order, on inputs that are drawn from a fixed start: one line for each call, with every eight bytes of the answer
 * and a sum of all that was lent to be written. Over the library of any processor it has to print the same.
 *
 * rows.h has a row for each call: tests/arm/rows.py writes it from the header. What a row is lent is made here, by the parameter's name. */
#include <stdio.h>
#include <string.h>
#include "fstf.h"

/* ── Numbers ── */

static uint64_t drawn = 88172645463325252u;

static uint64_t draw(void) {
    drawn ^= drawn << 13;
    drawn ^= drawn >> 7;
    drawn ^= drawn << 17;
    return drawn;
}

static uint64_t below(uint64_t bound) { return draw() % bound; }

static uint64_t any(void) { return draw() >> below(64); }

static uint64_t clock_time;

static uint64_t number(const char *name) {
    if (below(16) == 0) return any();
    if (strcmp(name, "time") == 0) return clock_time += below(1000);
    return below(below(2) ? 4 : 10);
}

/* ── Bytes ── */

#define ROOM 16384u

typedef struct {
    size_t length;
    uint8_t bytes[ROOM];
} Made;

static void put(Made *made, uint64_t value, size_t width) {
    for (size_t k = 0; k < width; k++) made->bytes[made->length++] = (uint8_t)(value >> (8 * k));
}

static void put_all(Made *made, const Made *other) {
    memcpy(made->bytes + made->length, other->bytes, other->length);
    made->length += other->length;
}

static void put_any(Made *made, size_t count) {
    while (count-- > 0) put(made, draw(), 1);
}

static void put_text(Made *made, size_t length) {
    put(made, length, 1);
    while (length-- > 0) put(made, 32 + below(95), 1);
}

/* The name of a tag, by its number. */
static void put_name(Made *made, uint64_t i) {
    put(made, 3, 1);
    put(made, 'T', 1);
    put(made, '0' + i / 10 % 10, 1);
    put(made, '0' + i % 10, 1);
}

/* Its value, by its number as well, so that a sheet can say what a table has. */
static void put_value(Made *made, uint64_t i) {
    uint64_t length = i * 7 % 12;
    put(made, length, 1);
    for (uint64_t k = 0; k < length; k++) put(made, 32 + (31 * i + k) % 95, 1);
}

static void put_table(Made *made, uint64_t tags) {
    put(made, tags, 4);
    for (uint64_t i = 0; i < tags; i++) {
        put_name(made, i);
        put_value(made, i);
    }
}

/* ── What a round is about: the sections and the tags of one recording. ── */

static uint64_t sections, tags, frames;

static void make_setup(Made *made) {
    put(made, sections, 1);
    for (uint64_t s = 0; s < sections; s++) {
        put(made, 1, 1);
        put(made, 'A' + s, 1);
        size_t configuration = below(20);
        put(made, configuration, 2);
        put_any(made, configuration);
    }
}

static void make_table(Made *made) { put_table(made, tags); }

static void make_name(Made *made) {
    put_name(made, below(tags + 2));
    /* without the byte of its length */
    memmove(made->bytes, made->bytes + 1, --made->length);
}

static void make_sections(Made *made) {
    for (uint64_t s = 0; s < sections; s++) {
        size_t size = below(60);
        put(made, size, 4);
        put_any(made, size);
    }
}

/* What was seen of a tag: what the table has, so that some large sheets do not conflict; anything, so that others conflict at many places; or nobody looked,
 * as in old sheets, which only the converter takes. */
enum { LOOKED, GUESSED, NOBODY_LOOKED, SEEN_WAYS };

static void put_seen(Made *made, uint64_t i, uint64_t way) {
    uint64_t value = way == LOOKED ? i < tags : below(2);
    put(made, way == NOBODY_LOOKED ? 2 : value, 1);
    if (way == NOBODY_LOOKED || value == 0) return;
    if (way == LOOKED) put_value(made, i);
    else put_text(made, below(12));
}

/* Every second sheet is of one way alone; of the others every second has no entry of an old sheet. */
static void make_sheet(Made *made) {
    uint64_t changes = below(below(8) ? 4 : 65), from = below(4), alone = below(2), way = below(SEEN_WAYS), ways = SEEN_WAYS - below(2);
    put(made, changes, 1);
    for (uint64_t c = 0; c < changes; c++) {
        put_name(made, from + c);
        put_seen(made, from + c, alone ? way : below(ways));
        if (below(4)) {
            put(made, 1, 1);
            put_text(made, below(30));
        } else {
            put(made, 0, 1);
        }
    }
}

/* The recording: closed, and as it stood before. It stays for the round, so that what was answered of it holds. */
static Made whole, unclosed;

static void record(Made *made, int closed) {
    static Made front, body, index;
    uint64_t definitions = 34 + 10 * sections, at, time = any() >> 1;
    made->length = front.length = body.length = index.length = 0;
    put(&body, sections, 1);
    for (uint64_t s = 0; s < sections; s++) {
        put(&body, 1, 1);
        put(&body, 'A' + s, 1);
        put(&body, definitions + 5 * s, 8);
    }
    put_any(&body, 5 * sections);
    at = 33 + body.length;
    put_table(&body, tags);
    put(&index, frames, 4);
    uint64_t first = time;
    for (uint64_t f = 0; f < frames; f++) {
        size_t start = body.length;
        put(&body, 0xEE0122FFu, 4);
        put(&body, time, 8);
        put(&body, any(), 4);
        make_sections(&body);
        put(&index, time - first, 4);
        put(&index, 33 + start, 8);
        put(&index, body.length - start, 4);
        time += below(1000);
    }
    put(&front, 0x0146545346u, 5);
    put(&front, closed ? frames : 0, 4);
    put(&front, closed ? 33 + body.length : 0, 8);
    put(&front, at, 8);
    put(&front, closed ? 33 + body.length + index.length : 0, 8);
    put_all(made, &front);
    put_all(made, &body);
    if (closed) {
        put_all(made, &index);
        make_table(made);
    }
}

static void make_file(Made *made) {
    put_all(made, below(3) ? &whole : &unclosed);
    if (below(8) == 0) made->length -= below(30);
}

static const struct {
    const char *name;
    void (*make)(Made *);
} MAKERS[] = {
    {"file", make_file},   {"setup", make_setup}, {"sections", make_sections}, {"sheet", make_sheet},
    {"table", make_table}, {"system", make_table}, {"name", make_name},
};
#define MAKER_COUNT (sizeof MAKERS / sizeof MAKERS[0])

/* ── What is lent ── the notes stay from call to call. Behind all that may be written are bytes that may not. */

#define AREAS 6u
#define BEHIND 64u

static union {
    uint64_t aligned;
    uint8_t bytes[ROOM + 8];
} read_areas[AREAS];
static union {
    uint64_t aligned;
    uint8_t bytes[ROOM + 8 + BEHIND];
} written_areas[AREAS], notes;
static size_t reads, writes;

static const void *lent(const char *name, size_t element, size_t *length) {
    static Made made;
    made.length = 0;
    if (strcmp(name, "notes") == 0) {
        *length = below(16) ? ROOM : below(64);
        return notes.bytes;
    }
    /* A name that nothing is made for is lent anything that is made. */
    size_t m = 0;
    while (m < MAKER_COUNT && strcmp(name, MAKERS[m].name) != 0) m++;
    MAKERS[m < MAKER_COUNT ? m : below(MAKER_COUNT)].make(&made);
    if (below(8) == 0) made.length = below(made.length + 1);
    if (below(8) == 0 && made.length > 0) made.bytes[below(made.length)] = (uint8_t)draw();
    uint8_t *at = read_areas[reads++ % AREAS].bytes + (element == 1 ? below(8) : 0);
    memcpy(at, made.bytes, made.length);
    *length = made.length / element;
    /* Of no bytes, nothing is lent. */
    return made.length > 0 ? at : NULL;
}

static void *written(const char *name, size_t element, size_t *length) {
    if (strcmp(name, "notes") == 0) return (void *)(uintptr_t)lent(name, element, length);
    *length = (below(6) ? ROOM : below(200)) / element;
    return written_areas[writes++ % AREAS].bytes + (element == 1 ? below(8) : 0);
}

/* ── States ── the last struct of each type that was answered, at times with one number changed. */

static struct {
    const char *type;
    uint8_t bytes[512];
} states[64];

static uint8_t *state_of(const char *type) {
    size_t k = 0;
    while (states[k].type != NULL && strcmp(states[k].type, type) != 0) k++;
    states[k].type = type;
    return states[k].bytes;
}

static void kept(const char *type, const void *state, size_t size) { memcpy(state_of(type), state, size); }

static void given(const char *type, void *state, size_t size) {
    memcpy(state, state_of(type), size);
    if (below(8) == 0) {
        uint64_t changed = any();
        memcpy((uint8_t *)state + 8 * below(size / 8), &changed, 8);
    }
}

/* ── What is shown ── */

static uint64_t sum(const uint8_t *bytes, size_t length) {
    uint64_t total = 0, eight;
    for (size_t k = 0; k + 8 <= length; k += 8) {
        memcpy(&eight, bytes + k, 8);
        total = (total ^ eight) * 1099511628211u;
        total ^= total >> 29;
    }
    return total;
}

static void shown(const void *answer, size_t size) {
    uint64_t eight;
    for (size_t k = 0; k + 8 <= size; k += 8) {
        memcpy(&eight, (const uint8_t *)answer + k, 8);
        printf(" %llu", (unsigned long long)eight);
    }
}

#include "rows.h"

#define ROW_COUNT (sizeof ROWS / sizeof ROWS[0])
#define ROUNDS 80
#define CALLS_OF_EACH 40

int main(void) {
    static uint64_t taken[ROW_COUNT], refused[ROW_COUNT];
    int failed = 0;
    for (int round = 0; round < ROUNDS; round++) {
        memset(states, 0, sizeof states);
        sections = 1 + below(below(2) ? 2 : 8);
        tags = below(below(2) ? 6 : 60);
        frames = below(8);
        clock_time = below(2) ? any() : below(100000);
        record(&whole, 1);
        record(&unclosed, 0);
        for (size_t k = 0; k < CALLS_OF_EACH * ROW_COUNT; k++) {
            size_t r = below(ROW_COUNT), before = writes;
            printf("%s", ROWS[r].name);
            if (ROWS[r].run()) refused[r]++;
            else taken[r]++;
            printf(" | %016llx", (unsigned long long)sum(notes.bytes, sizeof notes.bytes));
            for (size_t w = before; w < writes; w++) {
                printf(" %016llx", (unsigned long long)sum(written_areas[w % AREAS].bytes, sizeof written_areas[0].bytes));
            }
            printf("\n");
        }
    }
    for (size_t r = 0; r < ROW_COUNT; r++) {
        printf("total %s: %llu taken, %llu refused\n", ROWS[r].name, (unsigned long long)taken[r], (unsigned long long)refused[r]);
        if (taken[r] == 0) {
            fprintf(stderr, "tests/arm/calls.c: %s was never taken: its parameters need inputs by their names, in MAKERS\n", ROWS[r].name);
            failed = 1;
        }
    }
    return failed;
}
