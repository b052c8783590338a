/* A frame at the limit of a section's bytes and one past it, and its reading by the numbers of one opening, over the static library: one line per
 * check. */
#include <stdio.h>
#include <stdlib.h>
#include <string.h>
#include "fstf.h"

#define LIMIT 16777216u

static int failures = 0;

static void check(const char *what, int holds) {
    printf("%s: %s\n", holds ? "ok" : "FAILED", what);
    if (!holds) failures++;
}

/* A piece, stored at its place in the file. */
static uint64_t store(uint8_t *file, uint64_t length, const uint8_t *out, FstfTaken taken) {
    memcpy(file + taken.start, out, taken.length);
    uint64_t end = taken.start + taken.length;
    return length < end ? end : length;
}

int main(void) {
    /* one section: its name "image", and a configuration of no bytes */
    static const uint8_t setup[] = {1, 5, 'i', 'm', 'a', 'g', 'e', 0, 0};
    static const uint8_t system[] = {0, 0, 0, 0};
    size_t room = LIMIT + 4096u;
    uint8_t *sections = malloc(room), *out = malloc(room), *before = malloc(room), *file = calloc(1, room);
    uint8_t notes[64], notes_before[64];
    if (!sections || !out || !before || !file) return 2;
    memset(notes, 0xA5, sizeof notes);
    memset(out, 0x5A, room);
    for (size_t k = 0; k < room; k++) sections[k] = (uint8_t)(k * 31u + (k >> 8));
    uint64_t length = 0;

    FstfTaken taken = fstf_begin(fstf_new(), setup, sizeof setup, system, sizeof system, notes, sizeof notes, out, room);
    check("begin is taken", taken.refused == 0 && taken.recorder.stage == 1 && taken.start == 0);
    length = store(file, length, out, taken);

    uint32_t size = LIMIT;
    for (int k = 0; k < 4; k++) sections[k] = (uint8_t)(size >> (8 * k));
    uint64_t start = taken.recorder.end;
    taken = fstf_add(taken.recorder, 1000, 20, sections, 4u + size, notes, sizeof notes, out, room);
    check("a section of 16777216 bytes is taken", taken.refused == 0 && taken.start == start && taken.length == 16u + 4u + size && taken.recorder.frames == 1);
    check("its bytes stand behind the frame's head", memcmp(out + 16, sections, 4u + size) == 0);
    length = store(file, length, out, taken);

    size = LIMIT + 1;
    for (int k = 0; k < 4; k++) sections[k] = (uint8_t)(size >> (8 * k));
    FstfRecorder state = taken.recorder;
    memcpy(notes_before, notes, sizeof notes);
    memcpy(before, out, room);
    taken = fstf_add(state, 1001, 20, sections, 4u + size, notes, sizeof notes, out, room);
    check("a section of 16777217 bytes is refused 14", taken.refused == FSTF_FRAME_SHAPE);
    check("the refusal leaves the notes", memcmp(notes, notes_before, sizeof notes) == 0);
    check("the refusal leaves the output", memcmp(out, before, room) == 0);
    check("the refusal leaves the state", memcmp(&taken.recorder, &state, sizeof state) == 0);

    int closed = 1;
    for (int k = 0; k < 5; k++) {
        taken = fstf_close(taken.recorder, notes, sizeof notes, out, room);
        if (taken.refused != 0) { closed = 0; break; }
        length = store(file, length, out, taken);
    }
    check("five close calls are taken and the recorder is closed", closed && taken.recorder.stage == 3);

    FstfOpened opened = fstf_open(file, length);
    check("the file opens with one frame and one section", opened.refused == 0 && opened.frames == 1 && opened.sections == 1);
    FstfFrame frame = fstf_frame(file, length, 0), frame_of = fstf_frame_of(file, length, opened, 0);
    check("what opening answered leads to the same frame", frame.refused == 0 && memcmp(&frame, &frame_of, sizeof frame) == 0);
    FstfPart part = fstf_part(file, length, FSTF_SECTION, 0, 0), part_of = fstf_part_of(file, length, opened, FSTF_SECTION, 0, 0);
    check("and to the same section", part.refused == 0 && part.length == LIMIT && memcmp(&part, &part_of, sizeof part) == 0);
    opened.refused = FSTF_USER_TABLE;
    opened.place = 5;
    part = fstf_part_of(file, length, opened, FSTF_SECTION, 0, 0);
    check("a refusal in it is passed through, with its place", part.refused == FSTF_USER_TABLE && part.place == 5);
    opened.refused = 0;
    part = fstf_part_of(NULL, 0, opened, FSTF_SECTION, 0, 0);
    check("a null pointer of length 0 is answered", fstf_open(NULL, 0).refused == FSTF_NOT_FSTF && part.refused == FSTF_NO_SUCH_ITEM);
    printf("%d failed\n", failures);
    return failures != 0;
}
