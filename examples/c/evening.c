/* An evening at the box: record a file, lose its end, repair it, tag it as two members with the same form, convert an old sheet, and find one bad character.
 *
 * evening DIRECTORY: the files stay in the directory. Every step is checked; the program ends with 1 where one is not as it should be. */
#define _POSIX_C_SOURCE 200809L
#include <fcntl.h>
#include <stdio.h>
#include <stdlib.h>
#include <string.h>
#include <sys/stat.h>
#include <unistd.h>
#include "fstf.h"

enum { FRAMES = 3, PIXELS = 8 };

static void check(int holds, const char *what) {
    if (!holds) {
        printf("NOT as it should be: %s\n", what);
        exit(1);
    }
}

/* A refusal, with its place where its number has one: the byte of the first fault, or for 11 the change of the sheet. */
static void tell(uint64_t refused, uint64_t place, const char *what) {
    printf("%s: refused %u, %s", what, (unsigned)refused, fstf_refusal_name(refused));
    switch (refused) {
    case FSTF_SECTIONS:
    case FSTF_SYSTEM_TABLE:
    case FSTF_USER_TABLE:
    case FSTF_SHEET: printf(" at byte %llu", (unsigned long long)place); break;
    case FSTF_CONFLICT: printf(" at change %llu", (unsigned long long)place); break;
    default: break;
    }
    printf("\n");
}

static void taken(uint64_t refused, uint64_t place, const char *what) {
    if (refused != FSTF_TAKEN) {
        tell(refused, place, what);
        exit(1);
    }
}

/* A number of so many bytes, low byte first. */
static void put(uint8_t *at, uint64_t number, int bytes) {
    for (int k = 0; k < bytes; k++) at[k] = (uint8_t)(number >> (8 * k));
}

/* ── Files ── */

static void write_at(int file, uint64_t place, const uint8_t *bytes, uint64_t length) {
    while (length > 0) {
        ssize_t written = pwrite(file, bytes, length, (off_t)place);
        check(written > 0, "the storage takes what is written");
        place += (uint64_t)written, bytes += written, length -= (uint64_t)written;
    }
}

static uint8_t *read_whole(const char *path, size_t *length) {
    struct stat met;
    int file = open(path, O_RDONLY);
    check(file >= 0 && fstat(file, &met) == 0, path);
    uint8_t *bytes = malloc((size_t)met.st_size + 1);
    check(bytes != NULL, "memory");
    *length = 0;
    for (ssize_t got; (got = read(file, bytes + *length, (size_t)met.st_size - *length)) > 0;) *length += (size_t)got;
    check(*length == (size_t)met.st_size, "the file is read to its end");
    close(file);
    return bytes;
}

/* A new file beside the old one: so many bytes of the old one and a tail. It is not renamed yet. */
static int begin_new(const char *path, const uint8_t *kept, uint64_t kept_length, const uint8_t *tail, uint64_t tail_length) {
    int file = open(path, O_WRONLY | O_CREAT | O_EXCL, 0644);
    check(file >= 0, "the new file is made");
    write_at(file, 0, kept, kept_length);
    write_at(file, kept_length, tail, tail_length);
    return file;
}

/* Flushed, renamed, and its directory flushed. */
static void end_new(int file, const char *from, const char *to) {
    check(fsync(file) == 0 && close(file) == 0 && rename(from, to) == 0, "the new file takes the old one's name");
    int directory = open(".", O_RDONLY);
    check(directory >= 0 && fsync(directory) == 0, "the new name is stored");
    close(directory);
}

/* ── Recording ── */

static void record(const char *path) {
    /* the section IMAGE with a configuration of 3 bytes; one system tag, CAMERA = QHY */
    static const uint8_t setup[] = {1, 5, 'I', 'M', 'A', 'G', 'E', 3, 0, '2', 'x', '2'};
    static const uint8_t system[] = {1, 0, 0, 0, 6, 'C', 'A', 'M', 'E', 'R', 'A', 3, 'Q', 'H', 'Y'};
    uint8_t notes[FSTF_NOTES_ROOM(FRAMES)], sections[4 + PIXELS];
    uint8_t first[FSTF_BEGIN_ROOM(sizeof setup, sizeof system)], frame[FSTF_ADD_ROOM(sizeof sections)], out[sizeof notes];
    int file = open(path, O_WRONLY | O_CREAT | O_EXCL, 0644);
    check(file >= 0, path);

    FstfTaken piece = fstf_begin(fstf_new(), setup, sizeof setup, system, sizeof system, notes, sizeof notes, first, sizeof first);
    taken(piece.refused, piece.place, "begin");
    write_at(file, piece.start, first, piece.length);
    check(fsync(file) == 0, "from here on, what is stored can be repaired");

    put(sections, PIXELS, 4);
    for (int number = 0; number < FRAMES; number++) {
        memset(sections + 4, 0x10 * (number + 1), PIXELS);
        piece = fstf_add(piece.recorder, 1000 + 40 * number, 40, sections, sizeof sections, notes, sizeof notes, frame, sizeof frame);
        taken(piece.refused, piece.place, "add");
        write_at(file, piece.start, frame, piece.length);
    }
    FstfTaken late = fstf_add(piece.recorder, 999, 40, sections, sizeof sections, notes, sizeof notes, frame, sizeof frame);
    check(late.refused == FSTF_CLOCK, "a clock that was set back is refused, and the recording goes on");

    for (int number = 0; number < FSTF_CLOSING_PIECES; number++) {
        /* frames, index and user table are stored before the header says that the recording is closed */
        if (number == 2) check(fsync(file) == 0, "flushed ahead of the last three pieces");
        piece = fstf_close(piece.recorder, notes, sizeof notes, out, sizeof out);
        taken(piece.refused, piece.place, "close");
        write_at(file, piece.start, out, piece.length);
    }
    check(fsync(file) == 0 && close(file) == 0, "closed on the disk");
}

static void list(const char *path, uint64_t frames) {
    size_t length;
    uint8_t *file = read_whole(path, &length);
    FstfOpened opened = fstf_open(file, length);
    taken(opened.refused, opened.place, path);
    printf("%s: %u frames, %u user tags\n", path, (unsigned)opened.frames, (unsigned)opened.user_tags);
    check(opened.frames == frames, "so many frames");
    for (uint64_t number = 0; number < opened.frames; number++) {
        FstfFrame frame = fstf_frame_of(file, length, opened, number);
        FstfPart pixels = fstf_part_of(file, length, opened, FSTF_SECTION, number, 0);
        taken(frame.refused, frame.place, "frame");
        taken(pixels.refused, pixels.place, "section");
        printf("  frame %u at %lld ms\n", (unsigned)number, (long long)frame.time);
        check(pixels.length == PIXELS && file[pixels.start] == 0x10 * (number + 1), "the pixels that were recorded");
    }
    /* the user table stands up to the file's end */
    const uint8_t *table = file + opened.user;
    size_t table_length = length - opened.user;
    for (FstfCursor c = fstf_first_tag(table, table_length); c.found; c = fstf_next_tag(table, table_length, c))
        printf("  %.*s = %.*s\n", (int)c.name_length, table + c.name, (int)c.value_length, table + c.value);
    free(file);
}

/* ── Repair ── the old file stays, since a repair writes the user table empty. */

/* How many tags stand from a place up to the file's end, if these bytes are a table. */
static uint64_t tags_from(const uint8_t *file, size_t length, uint64_t place) {
    if (place > length) return 0;
    FstfCursor first = fstf_first_tag(file + place, length - place);
    return first.found ? first.left + 1 : 0;
}

/* Answers how many tags were not kept. */
static uint64_t repair(const char *path, const char *old, uint64_t expected) {
    size_t length;
    uint8_t *file = read_whole(path, &length);
    FstfOpened opened = fstf_open(file, length);
    tell(opened.refused, opened.place, path);
    check(opened.refused == expected, "the refusal that sends to a repair");

    uint64_t room = FSTF_REPAIR_ROOM(length);
    uint8_t *tail = malloc(room);
    check(tail != NULL, "memory");
    FstfRepaired repaired = fstf_repair(file, length, tail, room);
    taken(repaired.refused, repaired.place, "repair");
    uint64_t tags = tags_from(file, length, repaired.user);
    printf("  repaired: %u frames, %u tags not kept; the old file is %s\n", (unsigned)repaired.count, (unsigned)tags, old);

    int new = begin_new("new.fstf", file, repaired.kept, tail, repaired.tail);
    uint8_t field[8];
    put(field, repaired.count, 4);
    write_at(new, FSTF_COUNT_PLACE, field, 4);
    put(field, repaired.index, 8);
    write_at(new, FSTF_INDEX_PLACE, field, 8);
    put(field, repaired.user, 8);
    write_at(new, FSTF_USER_PLACE, field, 8);
    check(link(path, old) == 0, "the old file has a second name");
    end_new(new, "new.fstf", path);
    free(tail);
    free(file);
    return tags;
}

/* ── Tags ── */

/* A line of the member's form: `seen` is what it showed, and `value` what the tag is to be; NULL where there was no such tag. */
typedef struct {
    const char *name, *seen, *value;
} Change;

enum { LINES = 2, SHEET_ROOM = 1 + LINES * 3 * 32 };

static size_t put_string(uint8_t *at, const char *string) {
    at[0] = (uint8_t)strlen(string);
    memcpy(at + 1, string, at[0]);
    return 1 + (size_t)at[0];
}

/* 0 for an absent value; 1 and the value. */
static size_t put_entry(uint8_t *at, const char *value) {
    at[0] = value != NULL;
    return 1 + (value != NULL ? put_string(at + 1, value) : 0);
}

static size_t make_sheet(uint8_t *sheet, const Change *changes, int count) {
    size_t end = 0;
    sheet[end++] = (uint8_t)count;
    for (int k = 0; k < count; k++) {
        end += put_string(sheet + end, changes[k].name);
        end += put_entry(sheet + end, changes[k].seen);
        end += put_entry(sheet + end, changes[k].value);
    }
    return end;
}

/* One line of what a form shows: the tag's name, what was seen and what the file says now. For many changes, one walk over the table by fstf_first_tag and
 * fstf_next_tag costs less than fstf_tag_named for each. */
static void show(const uint8_t *table, size_t table_length, Change change, int conflicts) {
    FstfTag now = fstf_tag_named(table, table_length, (const uint8_t *)change.name, strlen(change.name));
    taken(now.refused, now.place, change.name);
    printf("  %s: seen %s, ", change.name, change.seen != NULL ? change.seen : "no such tag");
    if (now.found) printf("the file says %.*s: ", (int)now.value_length, table + now.value);
    else printf("the file has no such tag: ");
    printf("%s\n", conflicts ? "conflicts" : "agrees");
}

/* Ahead of a commit: the file is only read. */
static FstfLooked look(const char *path, const Change *changes, int count, const char *who) {
    uint8_t sheet[SHEET_ROOM];
    size_t length, sheet_length = make_sheet(sheet, changes, count);
    uint8_t *file = read_whole(path, &length);
    FstfLooked looked = fstf_look(file, length, sheet, sheet_length);
    taken(looked.refused, looked.place, who);
    FstfOpened opened = fstf_open(file, length);
    taken(opened.refused, opened.place, path);
    printf("%s looks\n", who);
    for (uint64_t k = 0; k < looked.changes; k++)
        show(file + opened.user, length - opened.user, changes[k], fstf_conflicts_at(looked, k));
    free(file);
    return looked;
}

/* The file is read anew, since somebody may have committed behind the look. */
static FstfCommitted commit_sheet(const char *path, const uint8_t *sheet, size_t sheet_length) {
    size_t length;
    uint8_t *file = read_whole(path, &length);
    FstfOpened opened = fstf_open(file, length);
    taken(opened.refused, opened.place, path);
    uint64_t room = FSTF_COMMIT_ROOM(length - opened.user, sheet_length);
    uint8_t *table = malloc(room);
    check(table != NULL, "memory");
    FstfCommitted committed = fstf_commit(file, length, sheet, sheet_length, table, room);
    if (committed.refused == FSTF_TAKEN)
        end_new(begin_new("new.fstf", file, opened.user, table, committed.length), "new.fstf", path);
    free(table);
    free(file);
    return committed;
}

static FstfCommitted commit(const char *path, const Change *changes, int count) {
    uint8_t sheet[SHEET_ROOM];
    return commit_sheet(path, sheet, make_sheet(sheet, changes, count));
}

/* Two members have the same form open, and Aino is the first to send it. */
static void tag_as_two_members(const char *path) {
    Change aino[] = {{"SITE", NULL, "Kuusamo"}};
    FstfLooked looked = look(path, aino, 1, "Aino");
    check(looked.changes == 1 && looked.conflicts == 0, "nobody was ahead of Aino");
    FstfCommitted committed = commit(path, aino, 1);
    taken(committed.refused, committed.place, "Aino commits");
    printf("Aino commits\n");

    Change veli[] = {{"NOTE", NULL, "wind"}, {"SITE", NULL, "Inari"}};
    looked = look(path, veli, 2, "Veli");
    check(looked.changes == 2 && looked.conflicts == 1 << 1, "the second of Veli's changes conflicts");
    committed = commit(path, veli, 2);
    tell(committed.refused, committed.place, "were he to commit all the same");
    check(committed.refused == FSTF_CONFLICT && committed.place == 1, "refused at the first change that a look shows to conflict");

    /* he has seen now what Aino wrote */
    veli[1].seen = "Kuusamo";
    looked = look(path, veli, 2, "Veli");
    check(looked.changes == 2 && looked.conflicts == 0, "what he has seen is what the file says");
    committed = commit(path, veli, 2);
    taken(committed.refused, committed.place, "Veli commits");
    printf("Veli commits\n");
}

/* ── Old sheets ── */

/* A sheet from before 0.5.0 has waited in a queue since it was prepared against this file. It says of both tags, by kind 2, that nobody looked. */
static void convert_an_old_sheet(const char *path) {
    static const uint8_t old[] = {
        2,
        4, 'S', 'I', 'T', 'E', 2, 1, 4, 'O', 'u', 'l', 'u',
        4, 'M', 'O', 'O', 'N', 2, 1, 3, 'n', 'e', 'w',
    };
    /* SITE is Inari in the file, and there is no tag MOON */
    static const uint8_t expected[] = {
        2,
        4, 'S', 'I', 'T', 'E', 1, 5, 'I', 'n', 'a', 'r', 'i', 1, 4, 'O', 'u', 'l', 'u',
        4, 'M', 'O', 'O', 'N', 0, 1, 3, 'n', 'e', 'w',
    };
    uint8_t sheet[FSTF_CONVERT_ROOM(sizeof old)];
    size_t length;
    uint8_t *file = read_whole(path, &length);

    FstfCommitted committed = commit_sheet(path, old, sizeof old);
    tell(committed.refused, committed.place, "an old sheet");
    check(committed.refused == FSTF_SHEET && old[committed.place] == 2, "the place is that of the first kind 2");
    FstfConverted asked = fstf_convert(file, length, old, sizeof old, NULL, 0);
    check(asked.refused == FSTF_NO_ROOM, "without room it is refused 9: room is all that it lacks");

    FstfConverted converted = fstf_convert(file, length, old, sizeof old, sheet, sizeof sheet);
    taken(converted.refused, converted.place, "convert");
    printf("  converted: %u bytes for %u\n", (unsigned)converted.length, (unsigned)sizeof old);
    check(converted.length == sizeof expected && memcmp(sheet, expected, sizeof expected) == 0, "filled in from the file, all else as it was");
    committed = commit_sheet(path, sheet, converted.length);
    taken(committed.refused, committed.place, "the converted sheet");
    printf("  committed\n");
    /* what was prepared against the file as it was is told of the change; before 0.5.0 it would have been written over */
    committed = commit_sheet(path, sheet, converted.length);
    tell(committed.refused, committed.place, "the same once more");
    check(committed.refused == FSTF_CONFLICT && committed.place == 0, "SITE is not what it was any more");
    free(file);
}

/* A value that no tag may have: a look is refused, as a commit would be, at the tab's place in the sheet. */
static void find_one_character_of_a_sheet(const char *path) {
    Change tab = {"SITE", "Inari", "Ina\tri"};
    uint8_t sheet[SHEET_ROOM];
    size_t length, sheet_length = make_sheet(sheet, &tab, 1);
    uint8_t *file = read_whole(path, &length);
    FstfLooked looked = fstf_look(file, length, sheet, sheet_length);
    tell(looked.refused, looked.place, "a tab in a value");
    /* 6 bytes of count and name; kind, length and 5 letters of what was seen; kind, length and 3 letters of what is new */
    check(looked.refused == FSTF_SHEET && looked.place == 6 + 7 + 5, "the place is the tab's in the sheet");
    check(commit(path, &tab, 1).place == looked.place, "a commit is refused at the same place");
    free(file);
}

/* One byte of the last tag's value is damaged: the place of the refusal is that byte, counted from the file's start. */
static void find_one_character(const char *path) {
    size_t length;
    uint8_t *file = read_whole(path, &length);
    FstfOpened whole = fstf_open(file, length);
    taken(whole.refused, whole.place, path);
    file[length - 2] = 0x07;
    FstfOpened damaged = fstf_open(file, length);
    tell(damaged.refused, damaged.place, "with one byte damaged");
    check(damaged.refused == FSTF_USER_TABLE && damaged.place == length - 2, "the place is the damaged byte");
    /* of the table alone, it counts from the table's start */
    FstfCursor first = fstf_first_tag(file + whole.user, length - whole.user);
    check(first.refused == FSTF_USER_TABLE && first.place == damaged.place - whole.user, "the same byte of the table");
    free(file);
}

int main(int count, char **arguments) {
    if (count != 2 || chdir(arguments[1]) != 0) {
        fprintf(stderr, "usage: evening DIRECTORY\n");
        return 2;
    }
    printf("fstf %s\n", FSTF_VERSION);
    record("night.fstf");
    list("night.fstf", FRAMES);

    size_t length;
    uint8_t *file = read_whole("night.fstf", &length);
    FstfFrame last = fstf_frame(file, length, FRAMES - 1);
    taken(last.refused, last.place, "the last frame");
    /* what a cut inside the last frame leaves: the header does not say yet that the recording is closed */
    memset(file + FSTF_COUNT_PLACE, 0, 4);
    memset(file + FSTF_INDEX_PLACE, 0, 8);
    memset(file + FSTF_USER_PLACE, 0, 8);
    int cut = begin_new("cut.fstf", file, last.start + 20, NULL, 0);
    check(close(cut) == 0, "the cut file");
    free(file);
    check(repair("cut.fstf", "cut.fstf.old", FSTF_NOT_CLOSED) == 0, "no tag was there");
    list("cut.fstf", FRAMES - 1);

    tag_as_two_members("cut.fstf");
    convert_an_old_sheet("cut.fstf");
    find_one_character_of_a_sheet("cut.fstf");
    list("cut.fstf", FRAMES - 1);
    find_one_character("cut.fstf");

    /* one flipped bit of the frame count: a repair brings the frames back, and the tags are in the old file only */
    uint8_t bit = (FRAMES - 1) ^ 4;
    int damaged = open("cut.fstf", O_WRONLY);
    check(damaged >= 0, "the file is there");
    write_at(damaged, FSTF_COUNT_PLACE, &bit, 1);
    check(close(damaged) == 0, "the damage is done");
    check(repair("cut.fstf", "cut.fstf.old2", FSTF_INDEX) == 3, "three tags were there");
    list("cut.fstf", FRAMES - 1);
    printf("All is as it should be.\n");
    return 0;
}
