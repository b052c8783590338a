/* FSTF revision 1: opening, reading, recording, repairing and tagging files that are lent as bytes.
 *
 * Link target/staticlib/libfstf.a, which ./staticlib writes (x86-64 Linux), or target/arm/libfstf.a, which arm/build writes (64-bit Arm Linux).
 * No call allocates, keeps a pointer, reads or writes a file, or fails in any other way than by a refusal number.
 * A refused call changes nothing of what is lent to it. An accepted one fills `out` from its start and leaves the bytes behind the answer.
 *
 * A slice is passed as a pointer and a length. Where the length is 0 the pointer is not read: it may be null. The caller ensures that
 *   - a pointer and its length are true: so many bytes are there, and nothing else changes them while the call runs;
 *   - a length is below 2^63;
 *   - what a call writes (`notes` of begin and add, `out`) overlaps nothing else that is lent to it.
 * All else is answered: any bytes, and any numbers in a state or an opening that is passed back.
 *
 * Every answer begins with two members:
 *   - `refused` is the number of the refusal, or 0; refused, all members behind `place` are 0, but for a recorder's state;
 *   - `place` is what the number carries beside it, and 0 for all others:
 *       3, 4, 7, 10: the position of the first fault under that number, reading front to back. It counts bytes from 0
 *           in the file: 3, 4 and 7 of fstf_open, fstf_frame, fstf_part, fstf_look, fstf_commit and fstf_convert, 3 and 4 of fstf_repair;
 *           in the sheet: 10 of fstf_look, fstf_commit and fstf_convert;
 *           in the set-up list: 10 and 3 of fstf_begin;
 *           in the table that is lent: 4 of fstf_begin, 7 of fstf_tag_at, fstf_tag_named and fstf_first_tag;
 *       11: the lowest change of the sheet, from 0, that conflicts: its seen entry is not the table's.
 *     fstf_frame_of, fstf_part_of and fstf_next_tag pass on number and place as they are given.
 * In a name or a value a position is that of the first byte that breaks the rule: the length byte where a name is empty, else the first byte that may not
 * stand there, or the length of the lent bytes where they run out. Of a number or a block that is cut off or not allowed it is the start, of a name that was
 * used before its length byte, of bytes left over the first. No position is behind the end of the lent bytes but one: where the header's system offset is,
 * that of 4 is this offset. docs/FORMAT.md says it at length.
 * The time of a call grows with the frames, the tags and the bytes of tables that it is given, and not with the bytes of sections that it only passes over.
 * Whoever chooses the names in a file can make opening it take longer than usual names of the same number and lengths would: at most 20 times, 17 in the
 * slowest file that was found. Where the file is refused it is read once more, for the place: that took up to 37 times as long as a usual file that opens.
 * Who chooses a sheet as well can make a look, a commit or a convert take some 40 times as long, 0.7 ms. These are measured (docs/PERFORMANCE.md), not
 * proved. As compiled, a call needs at most 70,000 bytes of stack.
 * Where a frame or a piece stands in the file is `start`. Headers without FSTF_VERSION called that `place`: a program written for one of them still compiles,
 * and would store every piece at 0. Write `start` there. Before 0.3.0, `place` was 0 for 3, 4, 7 and 10.
 * Before 0.4.0, fstf_commit was called fstf_save, its answer FstfSaved and its room FSTF_SAVE_ROOM; these names are gone. What the call takes and answers
 * has not changed: a program written for 0.3.0 writes the new names, and may call fstf_look ahead of it.
 * Before 0.5.0, a change could say by seen kind 2 that nobody had looked, and was made whatever the file said. A sheet with one is refused 10 now: write what
 * was seen, and take old sheets that still wait in a queue through fstf_convert. All else is as it was.
 */
#ifndef FSTF_H
#define FSTF_H

#include <stddef.h>
#include <stdint.h>

#ifdef __cplusplus
extern "C" {
#endif

/* The refusals: what the member `refused` of every answer holds. */
enum {
    FSTF_TAKEN = 0, /* not refused */
    FSTF_NOT_FSTF = 1, /* not FSTF: The file is no FSTF recording, or shorter than a header. */
    FSTF_REVISION = 2, /* revision: The file is of another revision; this library reads revision 1. */
    FSTF_SECTIONS = 3, /* sections: The section names or their configuration offsets are broken: the first fault is at this place. */
    FSTF_SYSTEM_TABLE = 4, /* system table: The system table is missing, misplaced or malformed: the first fault is at this place. */
    FSTF_NOT_CLOSED = 5, /* not closed: The recording was never closed: repair it. Repair empties the user table: keep the old file for its tags. */
    FSTF_INDEX = 6, /* index: Frames, times and index do not agree: repair it. Repair empties the user table: keep the old file for its tags. */
    FSTF_USER_TABLE = 7, /* user table: The user table is malformed or does not end the file: the first fault is at this place. */
    FSTF_NO_SUCH_ITEM = 8, /* no such item: Ask for an item number below its count. */
    FSTF_NO_ROOM = 9, /* no room: Lend a longer output (or longer notes). */
    FSTF_SHEET = 10, /* sheet: The change sheet, or the set-up list, is malformed: the first fault is at this place. */
    FSTF_CONFLICT = 11, /* conflict: Somebody changed the tag at this place of the sheet since it was seen: look again, which shows every conflict. */
    FSTF_STAGE = 12, /* stage: The recorder's state does not take this call. */
    FSTF_CLOCK = 13, /* clock: The frame's time is before the last one's or too far behind the first. */
    FSTF_FRAME_SHAPE = 14, /* frame shape: The sections given are not what the recording was begun with, or one is too large. */
    FSTF_FULL = 15, /* full: The recording can hold no more. */
    FSTF_WHOLE = 16, /* whole: Nothing to repair: the file opens. */
    FSTF_TABLE_FULL = 17 /* table full: More than 1,000 tags after the commit. */
};

/* The name of a refusal, as it stands above. */
static inline const char *fstf_refusal_name(uint64_t refused) {
    switch (refused) {
    case FSTF_TAKEN: return "taken";
    case FSTF_NOT_FSTF: return "not FSTF";
    case FSTF_REVISION: return "revision";
    case FSTF_SECTIONS: return "sections";
    case FSTF_SYSTEM_TABLE: return "system table";
    case FSTF_NOT_CLOSED: return "not closed";
    case FSTF_INDEX: return "index";
    case FSTF_USER_TABLE: return "user table";
    case FSTF_NO_SUCH_ITEM: return "no such item";
    case FSTF_NO_ROOM: return "no room";
    case FSTF_SHEET: return "sheet";
    case FSTF_CONFLICT: return "conflict";
    case FSTF_STAGE: return "stage";
    case FSTF_CLOCK: return "clock";
    case FSTF_FRAME_SHAPE: return "frame shape";
    case FSTF_FULL: return "full";
    case FSTF_WHOLE: return "whole";
    case FSTF_TABLE_FULL: return "table full";
    default: return "unknown";
    }
}

/* ── Version ── of this header and of the library that belongs to it. */
#define FSTF_VERSION "0.5.0"
#define FSTF_VERSION_MAJOR 0
#define FSTF_VERSION_MINOR 5
#define FSTF_VERSION_PATCH 0

/* ── Places and limits of the format ── Numbers in a file have their low byte first. */
enum {
    /* Where the fields of the header stand. A repair is applied by storing `count` in 4 bytes at 5, `index` in 8 at 9 and `user` in 8 at 25. */
    FSTF_COUNT_PLACE = 5,   /* the number of frames, 4 bytes */
    FSTF_INDEX_PLACE = 9,   /* where the index starts, 8 bytes */
    FSTF_SYSTEM_PLACE = 17, /* where the system table starts, 8 bytes */
    FSTF_USER_PLACE = 25,   /* where the user table starts, 8 bytes */
    FSTF_HEADER_LENGTH = 33,

    FSTF_MOST_SECTIONS = 8,             /* of a frame; at least 1 */
    FSTF_LONGEST_NAME = 255,            /* bytes of a name; at least 1. Of a section: 0-9, A-Z, a-z; of a tag: bytes 32 to 126 */
    FSTF_LONGEST_VALUE = 255,           /* bytes of a tag's value, 32 to 126; may be none */
    FSTF_LONGEST_CONFIGURATION = 65535, /* bytes of a section's configuration */
    FSTF_LONGEST_SECTION = 16777216,    /* bytes of a section in a frame */
    FSTF_MOST_FRAMES = 1000000,         /* of a recording */
    FSTF_MOST_TAGS = 1000,              /* of a table */
    FSTF_MOST_CHANGES = 64,             /* of a sheet */
    FSTF_LARGEST_TABLE = 512004,        /* bytes of a table: 4, and for each of 1,000 tags twice a length and 255 bytes */
    FSTF_CLOSING_PIECES = 5
};
#define FSTF_LONGEST_SPAN UINT64_C(4294967295) /* milliseconds from the first frame to any other */
#define FSTF_LARGEST_FILE (UINT64_C(1) << 40)  /* bytes of a recording, its user table at its largest */
#define FSTF_LARGEST_SHEET UINT64_C(49281)     /* bytes of a sheet: 1, and for each of 64 changes a name, a kind and a value twice, all at their longest */

/* ── Room ── how many bytes of `out`, and of `notes`, are enough whatever the call is given. */
#define FSTF_BEGIN_ROOM(setup_length, system_length) (UINT64_C(81) + (setup_length) + (system_length))
#define FSTF_ADD_ROOM(sections_length) (UINT64_C(16) + (sections_length))
/* The notes of so many frames, and the `out` of the first close call. 16,000,004 bytes are enough for any recording. */
#define FSTF_NOTES_ROOM(frames) (UINT64_C(4) + UINT64_C(16) * (frames))
/* A repair's tail: 8 bytes, and 16 more for each frame. No frame has fewer than 20 bytes, so that a file's length is a bound; 16,000,008 are enough for
 * any file. */
#define FSTF_REPAIR_ROOM(file_length) \
    (UINT64_C(8) + UINT64_C(16) * ((file_length) / 20 < FSTF_MOST_FRAMES ? (file_length) / 20 : FSTF_MOST_FRAMES))
/* A commit's table: no longer than the old table, from `user` to the file's end, and the sheet together. FSTF_LARGEST_TABLE bytes are always enough. */
#define FSTF_COMMIT_ROOM(table_length, sheet_length) (UINT64_C(0) + (table_length) + (sheet_length))
/* A converted sheet: for each change of which nobody looked, at most 64, a length and 255 bytes more than the old one. FSTF_LARGEST_SHEET bytes are always
 * enough too. */
#define FSTF_CONVERT_ROOM(sheet_length) (UINT64_C(0) + (sheet_length) + UINT64_C(16384))

/* ── When to flush ── What is said of cuts below holds for storage that keeps the order of writes. A disk or a card behind a cache may store a later
 * write first. There, flush (fsync and the like) three times:
 *   1. after the first piece: without it nothing can be repaired;
 *   2. after the second closing piece, ahead of the last three, which say in the header that the recording is closed. Otherwise a cut can leave a file
 *      that opens and shows pixels that were never stored;
 *   3. after the fifth closing piece, before anybody is told that the recording is closed.
 * Between 1 and 2, flush as often as you want to be sure of frames: of frames that were added since, a repair after a cut may find none, or pixels
 * that were never stored.
 * A repaired file and a file with new tags are written under another name, flushed, and renamed; then the directory is flushed. */

/* ── Before a repair replaces a file ── A repaired file has an empty user table. A recording that was cut off had none; but a closed file is refused 5 or 6
 * too where, say, one bit of its header flipped, and then its members' tags are not kept. They can still be read where the bytes from the header's user
 * offset, or from the repair's `user`, up to the file's end are a table: `fstf_tag_at` says so. Keep the old file. */

/* ── Opening ── refused 1 to 7, the first that holds. The place of 3, 4 and 7 counts from the start of the file, also where it is in a table. */
typedef struct {
    uint64_t refused;
    uint64_t place;
    uint64_t frames;      /* how many frames the file has */
    uint64_t sections;    /* how many sections every frame has, 1 to 8 */
    uint64_t system_tags; /* how many tags the system table has */
    uint64_t user_tags;   /* how many tags the user table has */
    uint64_t system;      /* where the system table starts */
    uint64_t start;       /* where the first frame starts */
    uint64_t index;       /* where the index starts */
    uint64_t user;        /* where the user table starts */
} FstfOpened;

FstfOpened fstf_open(const uint8_t *file, size_t file_length);

/* ── Reading ── refused 1 to 7, then 8. Numbers count from 0.
 * `fstf_frame` and `fstf_part` open the file at each call. `fstf_frame_of` and `fstf_part_of` go by an opening that went ahead: one who reads many
 * items opens once, and passes what `fstf_open` answered. While the file stays as it was, the answers are the same. A number in `refused` is passed
 * through, with its place; any other numbers lead to bytes within the file, or are refused 8. */
typedef struct {
    uint64_t refused;
    uint64_t place;
    uint64_t start;    /* where the frame starts in the file */
    uint64_t length;   /* the number of its bytes */
    int64_t time;      /* its time in milliseconds */
    uint64_t exposure; /* as the frame's head says it, below 2^32 */
} FstfFrame;

FstfFrame fstf_frame(const uint8_t *file, size_t file_length, uint64_t i);
FstfFrame fstf_frame_of(const uint8_t *file, size_t file_length, FstfOpened opened, uint64_t i);

/* Where the bytes of an item stand in the file. */
typedef struct {
    uint64_t refused;
    uint64_t place;
    uint64_t start;
    uint64_t length;
} FstfPart;

/* What `kind` asks for; any other kind is answered as an item that is not there. */
enum {
    FSTF_SECTION = 0,       /* section j of frame i */
    FSTF_SECTION_NAME = 1,  /* the name of section i; j is not looked at, nor below */
    FSTF_CONFIGURATION = 2, /* the configuration of section i */
    FSTF_SYSTEM_NAME = 3,   /* the name of system tag i */
    FSTF_SYSTEM_VALUE = 4,  /* its value */
    FSTF_USER_NAME = 5,     /* the name of user tag i */
    FSTF_USER_VALUE = 6     /* its value */
};

FstfPart fstf_part(const uint8_t *file, size_t file_length, uint64_t kind, uint64_t i, uint64_t j);
FstfPart fstf_part_of(const uint8_t *file, size_t file_length, FstfOpened opened, uint64_t kind, uint64_t i, uint64_t j);

/* ── Recording ── into a file that is empty: begin once, add each frame, close five times. Each call is given the state and the notes as the call
 * before left them, and hands out one piece, the first `length` bytes of `out`. The caller stores it at `start` in the file, the pieces in the order
 * in which they came: then a recording that was cut short, at any byte, does not open, unless it is the finished file already, and `fstf_repair` keeps its
 * whole frames once the first piece was stored. Refused, the state is handed back as it was given, and nothing is to be stored. */
typedef struct {
    uint64_t stage;    /* 0 fresh, 1 running, 2 closing, 3 closed; any other number is taken as closed */
    uint64_t piece;    /* closing: the next piece, 0 to 4; else 0 */
    uint64_t sections; /* how many sections every frame has */
    uint64_t frames;   /* how many frames were added */
    int64_t first;     /* the first frame's time */
    int64_t last;      /* the last frame's time */
    uint64_t end;      /* where the next frame goes */
} FstfRecorder;

typedef struct {
    uint64_t refused;
    uint64_t place;
    uint64_t start;  /* where the piece goes in the file */
    uint64_t length; /* how many bytes of `out` are the piece */
    FstfRecorder recorder;
} FstfTaken;

/* A fresh recorder. */
FstfRecorder fstf_new(void);

/* The set-up list: the number of sections in a byte, and for each a name (a byte of length, its bytes) and a configuration (two bytes of length, low
 * byte first, its bytes). `system` is the system table as it stands in the file. `notes` keep the index: 4 bytes, and 16 more for each frame.
 * Refused 12, 10, 3, 4, 9. The place of 10, where the list runs out or has bytes left over, and of 3, where its number or a name breaks the rule, counts
 * from the start of `setup`; that of 4 from the start of `system`. */
FstfTaken fstf_begin(FstfRecorder recorder, const uint8_t *setup, size_t setup_length, const uint8_t *system, size_t system_length, uint8_t *notes,
                     size_t notes_length, uint8_t *out, size_t out_length);

/* `sections`: for each section four bytes of length, low byte first, and its bytes. Refused 12, 14, 15, 13, 9. */
FstfTaken fstf_add(FstfRecorder recorder, int64_t time, uint32_t exposure, const uint8_t *sections, size_t sections_length, uint8_t *notes,
                   size_t notes_length, uint8_t *out, size_t out_length);

/* One closing piece a call, in this order: the index behind the frames, the empty user table behind the index, and in the header the count, the user
 * offset and the index offset. The first call ends adding; it wants `notes` of 4 bytes and 16 more for each frame, and an `out` as long. The others do
 * not look at `notes` and want 8 bytes of `out` at most. After the fifth the recorder is closed. Refused 12, 9. */
FstfTaken fstf_close(FstfRecorder recorder, const uint8_t *notes, size_t notes_length, uint8_t *out, size_t out_length);

/* ── Repair ── of a file that was cut: keep its first `kept` bytes, put the tail behind them, and set the header's count, index offset and user
 * offset. Refused 1 to 4, 16, 13, 15, 9. The place of 3 and 4 counts from the start of the file. */
typedef struct {
    uint64_t refused;
    uint64_t place;
    uint64_t kept;
    uint64_t count;
    uint64_t index;
    uint64_t user;
    uint64_t tail; /* how many bytes of `out` are the tail */
} FstfRepaired;

FstfRepaired fstf_repair(const uint8_t *file, size_t file_length, uint8_t *out, size_t out_length);

/* ── Saving tags ── in two calls: a look, for a form to show what conflicts, and a commit. Both take a file and a change sheet: the number of changes in a
 * byte, at most 64; for each a name; what was seen (0 absent, 1 and a value); what is new (0 absent, 1 and a value). A change conflicts where the user table
 * has something else under its name than was seen, and agrees where it has the same. Kind 2, which old sheets have for what was seen where nobody looked, is
 * refused 10 at that byte: convert such a sheet with fstf_convert against the file that it was prepared against.
 *
 * A look says of each change whether it agrees or conflicts. Refused 1 to 7, 10. The place of 3, 4 and 7 counts from the start of the file, that of 10 from
 * the start of the sheet. */
typedef struct {
    uint64_t refused;
    uint64_t place;
    uint64_t changes;   /* how many changes the sheet has */
    uint64_t conflicts; /* those that conflict: bit i, worth 2^i, is change i. 0 where all agree */
} FstfLooked;

FstfLooked fstf_look(const uint8_t *file, size_t file_length, const uint8_t *sheet, size_t sheet_length);

/* Whether a change of the sheet, from 0, conflicts. */
static inline int fstf_conflicts_at(FstfLooked looked, uint64_t change) {
    return change < FSTF_MOST_CHANGES && (looked.conflicts >> change & 1) != 0;
}

/* A commit hands out the new user table, to be stored from the user table's place on, where the file then ends. Refused 1 to 7, 10, 11, 17, 9. It is refused
 * 11 exactly where a look shows a conflict, and the place is the lowest change that does; the places of 3, 4, 7 and 10 are those of a look. Between a look
 * and a commit somebody else may store a new table: read the file anew for the commit, and where it is refused 11, look again. */
typedef struct {
    uint64_t refused;
    uint64_t place;
    uint64_t length; /* how many bytes of `out` are the new table */
} FstfCommitted;

FstfCommitted fstf_commit(const uint8_t *file, size_t file_length, const uint8_t *sheet, size_t sheet_length, uint8_t *out, size_t out_length);

/* ── Old sheets ── from before 0.5.0 could say by seen kind 2 that nobody had looked. A convert takes one, and the file that it was prepared against, and
 * hands out the same sheet with each kind 2 filled in from that file's user table: 0 where it has no tag of that name, 1 and the value where it has. All
 * other bytes stay, and a sheet without kind 2 comes back as it is. Committed to that same file, in any room, the new sheet gives what the old one gave
 * before 0.5.0, be it a table or a refusal. Committed to a file that another member has changed since, it is refused 11 where the old one would have written
 * over the change. Do not convert against that later file: the sheet would say that its member saw what nobody did.
 *
 * Refused 1 to 7, 10, 9. The place of 3, 4 and 7 counts from the start of the file. 10 is for whatever breaks the rules of a sheet, but for kind 2; its place
 * counts from the start of `sheet`, as that of a commit does. 11 and 17 are for the commit to find. The length is known before a byte is written: where it is
 * refused, nothing was. FSTF_CONVERT_ROOM(sheet_length) bytes of `out` always suffice, and so do FSTF_LARGEST_SHEET. A call without room, `out` null and
 * `out_length` 0, is refused 9 exactly where room is all that it lacks. */
typedef struct {
    uint64_t refused;
    uint64_t place;
    uint64_t length; /* how many bytes of `out` are the new sheet */
} FstfConverted;

FstfConverted fstf_convert(const uint8_t *file, size_t file_length, const uint8_t *sheet, size_t sheet_length, uint8_t *out, size_t out_length);

/* ── Tags of a table ── `table` is exactly a table, as it stands in a file: else refused 7. The place counts from the start of `table`. */
typedef struct {
    uint64_t refused;
    uint64_t place;
    uint64_t found;        /* 1, or 0 where there is no such tag; then the members below are 0 */
    uint64_t name;         /* where its name's bytes start in the table */
    uint64_t name_length;
    uint64_t value;        /* where its value's bytes start in the table */
    uint64_t value_length;
} FstfTag;

FstfTag fstf_tag_at(const uint8_t *table, size_t table_length, uint64_t number);
FstfTag fstf_tag_named(const uint8_t *table, size_t table_length, const uint8_t *name, size_t name_length);

/* ── One tag after another ── to list a table, where `fstf_tag_at` would look at all of it for each tag: the first call looks at the table, and each next
 * tag is read behind the one before.
 *     for (FstfCursor c = fstf_first_tag(t, n); c.found; c = fstf_next_tag(t, n, c)) ..
 * Over bytes that are not exactly a table the first call is refused 7, with a place from the start of `table`, and the cursor stays refused; at the end it
 * stays at the end. Any cursor is taken: one of other bytes, or with any numbers, goes to the tag that stands behind its value, or to the end. */
typedef struct {
    uint64_t refused;
    uint64_t place;
    uint64_t found;        /* 1 at a tag; 0 at the end and where it is refused, and then the members below are 0 */
    uint64_t name;         /* where its name's bytes start in the table */
    uint64_t name_length;
    uint64_t value;        /* where its value's bytes start in the table */
    uint64_t value_length;
    uint64_t left;         /* how many tags come behind it */
} FstfCursor;

FstfCursor fstf_first_tag(const uint8_t *table, size_t table_length);
FstfCursor fstf_next_tag(const uint8_t *table, size_t table_length, FstfCursor at);

#ifdef __cplusplus
}
#endif

#endif
