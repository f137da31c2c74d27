/* SPDX-License-Identifier: Apache-2.0 OR MIT */
/*
 * Hostile use of libbactool, for scripts/try-library: `try-library COUNT [few] < FRAMES` tries each record of a file of
 * frames, messages in segments, and then COUNT random inputs, in four threads: for each that is accepted 8 times its
 * fields with random changes, and for each sixteenth input a random message in segments. With `few` it is once, only
 * each eighth octet of a line is changed, and the messages are short. All octets that are passed end where a page begins
 * that must not be touched, so a fault of memory ends the program. It prints a line for each thing that is wrong, and
 * one at the end.
 *
 * It is linked with --wrap for malloc, realloc and free, so that memory can be refused.
 */
#define _GNU_SOURCE
#include "drawn.h"
#include "line-of-fields.h"
#include "refused-memory.h"
#include "segments.h"
#include <bactool.h>
#include <pthread.h>
#include <stdio.h>
#include <stdlib.h>
#include <string.h>
#include <sys/mman.h>
#include <unistd.h>

enum { LONGEST = 65535, TEXT = 1 << 20, KEPT = 0xA5, THREADS = 4, BEHIND = 16 };

/* The records of a message, each of them twice, and some more. */
enum { RECORDS = 1 << 18, MOST_SEGMENTS = 256 };

/* A frame has at most two fields for each of its canonical octets, and two more. There is room for two others before
   them. Where memory is refused, there is room for some. */
enum { FIELDS = 2 * (LONGEST + 2), SOME_FIELDS = 1 << 10 };

/* Octets have at most one piece for each, and one more. They are written where fields are, which take more room. */
enum { PIECES = LONGEST + 1, SOME_PIECES = SOME_FIELDS * sizeof(struct bactool_field) / sizeof(struct bactool_piece) };

/* More octets than the lines of all pieces have. */
enum { LINES = 1 << 24 };

static _Atomic unsigned long faults;

#define EXPECT(holds)                                                                \
    do {                                                                             \
        if (!(holds) && faults++ < 20)                                               \
            printf("try-library: line %d: %s\n", __LINE__, #holds);                  \
    } while (0)

/* How many allocations were refused. */
static unsigned long refusals;

/* ---- memory before a page that must not be touched */

struct yard {
    uint8_t *end;
    size_t size;
};

static struct yard new_yard(size_t size)
{
    size_t page = (size_t)sysconf(_SC_PAGESIZE), whole = (size + page - 1) / page * page;
    uint8_t *start = mmap(NULL, whole + page, PROT_READ | PROT_WRITE, MAP_PRIVATE | MAP_ANONYMOUS, -1, 0);
    if (start == MAP_FAILED || mprotect(start + whole, page, PROT_NONE) != 0)
        exit(2);
    return (struct yard){start + whole, whole};
}

/* The last `length` octets of a yard, with these octets. */
static const uint8_t *placed(struct yard yard, const uint8_t *octets, size_t length)
{
    return length == 0 ? yard.end : memcpy(yard.end - length, octets, length);
}

/* The last `room` octets of a yard; they and those before them are KEPT. */
static uint8_t *cleared(struct yard yard, size_t room)
{
    size_t front = room + BEHIND < yard.size ? room + BEHIND : yard.size;
    memset(yard.end - front, KEPT, front);
    return yard.end - room;
}

static bool all_kept(const uint8_t *octets, size_t count)
{
    for (size_t k = 0; k < count; k++)
        if (octets[k] != KEPT)
            return false;
    return true;
}

static bool is_kept(struct yard yard, size_t room)
{
    size_t front = room + BEHIND < yard.size ? room + BEHIND : yard.size;
    return all_kept(yard.end - front, front);
}

/* Octets that are passed, octets and fields that are written, and what was written at first. */
struct bench {
    struct yard left, right, out, fields, records, lines;
    struct bactool_field *known;
    struct bactool_piece *explained;
    char *line;
    uint8_t *shown, *made, *mixed;
};

static struct bench new_bench(void)
{
    struct bench bench = {new_yard(RECORDS), new_yard(LONGEST), new_yard(TEXT),
                          new_yard(FIELDS * sizeof(struct bactool_field)), new_yard(RECORDS), new_yard(LINES),
                          NULL, NULL, NULL, NULL, NULL, NULL};
    bench.known = (struct bactool_field *)new_yard(FIELDS * sizeof(struct bactool_field)).end - FIELDS;
    bench.explained = (struct bactool_piece *)new_yard(PIECES * sizeof(struct bactool_piece)).end - PIECES;
    bench.line = (char *)new_yard(TEXT).end - TEXT;
    bench.shown = new_yard(LONGEST).end - LONGEST;
    bench.made = new_yard(RECORDS).end - RECORDS;
    bench.mixed = new_yard(RECORDS).end - RECORDS;
    return bench;
}

/* ---- one input */

/* An outcome before a call, which fills in the whole of it. */
#define UNTOLD {77, 77, 77, 77}

static bool tells(struct bactool_outcome told, uint32_t why, size_t place, size_t count, size_t fields)
{
    return told.why == why && told.place == place && told.count == count && told.fields == fields;
}

static bool says(struct bactool_outcome told, uint32_t why, size_t place, size_t length)
{
    return tells(told, why, place, length, 0);
}

/* What is written, at the given room: whole, and what follows is kept, or nothing. */
typedef uint32_t written_by(const uint8_t *octets, size_t length, uint8_t *out, size_t room,
                            struct bactool_outcome *told);

static uint32_t show(const uint8_t *octets, size_t length, uint8_t *out, size_t room, struct bactool_outcome *told)
{
    return bactool_show(octets, length, (char *)out, room, told);
}

static uint32_t normalise(const uint8_t *octets, size_t length, uint8_t *out, size_t room, struct bactool_outcome *told)
{
    return bactool_normalise(octets, length, out, room, told);
}

static void try_rooms(struct bench bench, written_by *write, const uint8_t *octets, size_t length, size_t wanted)
{
    const size_t rooms[] = {0, wanted == 0 ? 0 : wanted - 1, wanted, wanted + 7};
    for (size_t k = 0; k < sizeof rooms / sizeof *rooms; k++) {
        struct bactool_outcome told = UNTOLD;
        uint8_t *out = cleared(bench.out, rooms[k]);
        uint32_t code = write(octets, length, out, rooms[k], &told);
        EXPECT(says(told, 0, 0, wanted));
        EXPECT(all_kept(out - BEHIND, BEHIND));
        if (rooms[k] < wanted) {
            EXPECT(code == BACTOOL_NO_ROOM && is_kept(bench.out, rooms[k]));
        } else {
            EXPECT(code == BACTOOL_OK && all_kept(out + wanted, rooms[k] - wanted));
        }
    }
}

/* ---- fields */

/* Which names were among the fields that were tried. */
static _Atomic bool was_seen[NAMES];

static struct bactool_field *cleared_fields(struct bench bench, size_t most)
{
    return (struct bactool_field *)cleared(bench.fields, most * sizeof(struct bactool_field));
}

static bool are_same(const struct bactool_field *left, const struct bactool_field *right, size_t count)
{
    for (size_t k = 0; k < count; k++)
        if (left[k].name != right[k].name || left[k].number != right[k].number || left[k].place != right[k].place
            || left[k].head != right[k].head || left[k].length != right[k].length)
            return false;
    return true;
}

/* Decodes into so many octets and so many fields. Both are written, or neither; what follows them is kept. Where there
   is no room, NULL is passed if `is_null`. */
static void try_room(struct bench bench, const uint8_t *octets, size_t length, const uint8_t *canonical, size_t count,
                     size_t fields, size_t room, size_t most, bool is_null)
{
    struct bactool_outcome told = UNTOLD;
    uint8_t *out = cleared(bench.out, room);
    struct bactool_field *written = cleared_fields(bench, most);
    uint32_t code = bactool_decode(octets, length, room == 0 && is_null ? NULL : out, room,
                                   most == 0 && is_null ? NULL : written, most, &told);
    EXPECT(tells(told, 0, 0, count, fields));
    if (room < count || most < fields) {
        EXPECT(code == BACTOOL_NO_ROOM);
        EXPECT(is_kept(bench.out, room) && is_kept(bench.fields, most * sizeof *written));
        return;
    }
    EXPECT(code == BACTOOL_OK);
    EXPECT(memcmp(out, canonical, count) == 0);
    EXPECT(are_same(written, bench.known, fields));
    EXPECT(all_kept(out - BEHIND, BEHIND) && all_kept(out + count, room - count));
    EXPECT(all_kept((uint8_t *)written - BEHIND, BEHIND));
    EXPECT(all_kept((uint8_t *)(written + fields), (most - fields) * sizeof *written));
}

/* Whether the number of a field is what its contents say, the most significant octet first. What says it otherwise, such
   as a bit of a head, or says a length, is left out. */
static bool is_number_of(struct bactool_field field, const uint8_t *contents)
{
    enum form form = named[field.name].form;
    uint64_t number = form == SIGNED && field.length > 0 && contents[0] >= 0x80 ? UINT64_MAX : 0;
    for (size_t k = 0; k < field.length && k < 8; k++)
        number = number << 8 | contents[k];
    bool is_service = 60 <= field.name && field.name < BACTOOL_FIELD_OPAQUE;
    bool is_said = is_service || form == PLAIN || form == OBJECT || form == MESSAGE || form == UNSIGNED
                || form == SIGNED || form == BITS_32 || form == BITS_64 || form == IDENTIFIER
                || (form == NUMBER && field.name >= BACTOOL_FIELD_REASON) || field.name == BACTOOL_FIELD_INVOKE_ID
                || field.name == BACTOOL_FIELD_SEQUENCE || field.name == BACTOOL_FIELD_WINDOW
                || field.name == BACTOOL_FIELD_HOP_COUNT;
    return !is_said || (field.length > 0 && number == field.number);
}

/* Whether a field lies in the head of a frame or of an APDU, where several may be parts of one octet. */
static bool is_in_head(uint32_t name)
{
    return name < BACTOOL_FIELD_CHOICE && name != BACTOOL_FIELD_REASON;
}

/* Each field lies in the octets. Behind the heads each begins where the one before it ends, and the last one ends with
   the frame; only four tags of a WritePropertyMultiple error belong to none. */
static void try_places(const uint8_t *canonical, size_t count, const struct bactool_field *fields, size_t most)
{
    size_t end = 0, tags = 0;
    bool is_error = bactool_find(fields, most, BACTOOL_FIELD_ERROR) != NULL;
    for (size_t k = 0; k < most; k++) {
        struct bactool_field field = fields[k];
        EXPECT(field.name < NAMES && named[field.name].form != NO_FIELD);
        was_seen[field.name] = true;
        EXPECT(field.place <= count && field.head <= count && field.length <= count);
        EXPECT(field.place + field.head + field.length <= count);
        EXPECT(is_number_of(field, canonical + field.place + field.head));
        if (!is_in_head(field.name) && field.place != end) {
            EXPECT(is_error && field.place == end + (field.name == BACTOOL_FIELD_OBJECT ? 2 : 1));
            tags += field.place - end;
        }
        if (field.place + field.head + field.length > end || !is_in_head(field.name))
            end = field.place + field.head + field.length;
    }
    EXPECT(end + (tags > 0) == count && (tags == 0 || tags == 3));
}

/* Makes the octets of fields that were decoded again: with all rooms near the one that is needed, of all fields but the
   last, and with a number that no frame has. The fields are as they were. */
static void try_encoded(struct bench bench, const uint8_t *canonical, size_t count, struct bactool_field *fields, size_t most)
{
    struct bactool_outcome told = UNTOLD;
    uint8_t *out = cleared(bench.out, count);
    EXPECT(bactool_encode(fields, most, canonical, count, NULL, 0, &told) == BACTOOL_NO_ROOM);
    EXPECT(tells(told, 0, 0, count, 0));
    EXPECT(bactool_encode(fields, most, canonical, count, out, count - 1, &told) == BACTOOL_NO_ROOM);
    EXPECT(tells(told, 0, 0, count, 0) && is_kept(bench.out, count));
    EXPECT(bactool_encode(fields, most, canonical, count, out, count, &told) == BACTOOL_OK);
    EXPECT(tells(told, 0, 0, count, 0) && memcmp(out, canonical, count) == 0);

    out = cleared(bench.out, count);
    uint32_t code = bactool_encode(fields, most - 1, canonical, count, out, 0, &told);
    EXPECT(code == BACTOOL_NO_ROOM || (code == BACTOOL_REFUSED && says(told, BACTOOL_SHORT, most - 1, 0)));
    uint64_t number = fields[1].number;
    fields[1].number = 2;
    EXPECT(bactool_encode(fields, most, canonical, count, out, count, &told) == BACTOOL_REFUSED);
    EXPECT(says(told, BACTOOL_BAD_NUMBER, 1, 0) && is_kept(bench.out, count));
    fields[1].number = number;
}

/* Reads a changed line. It is refused at the place at which its front of one octet more is, and the front up to there
   begins a line; or it is what the library shows of the octets that it is read as. */
static void try_changed_line(struct bench bench, const char *line, size_t length, size_t changed)
{
    struct bactool_outcome told = UNTOLD, front = UNTOLD;
    uint8_t *out = cleared(bench.out, length);
    if (bactool_read(line, length, out, length, &told) == BACTOOL_OK) {
        size_t count = told.count;
        memcpy(bench.shown, out, count);
        char *shown = (char *)cleared(bench.out, length);
        EXPECT(bactool_show(bench.shown, count, shown, length, &told) == BACTOOL_OK && told.count == length);
        EXPECT(memcmp(shown, line, length) == 0);
        return;
    }
    EXPECT(told.place >= changed && told.place <= length && is_kept(bench.out, length));
    EXPECT(says(told, told.place == length ? BACTOOL_SHORT : BACTOOL_BAD_TEXT, told.place, 0));
    uint32_t code = bactool_read(line, told.place, NULL, 0, &front);
    EXPECT(code == BACTOOL_NO_ROOM || (code == BACTOOL_REFUSED && says(front, BACTOOL_SHORT, told.place, 0)));
    if (told.place < length) {
        code = bactool_read(line, told.place + 1, NULL, 0, &front);
        EXPECT(code == BACTOOL_REFUSED && says(front, BACTOOL_BAD_TEXT, told.place, 0));
    }
}

/* Whether less is tried, since it takes long under a memory checker. */
static bool few;

/* Reads the line of a frame, which gives its canonical octets; and, if it is short, its fronts, and the line with each of its
   octets changed, doubled and left out. */
static void try_line(struct bench bench, const char *line, size_t length, const uint8_t *canonical, size_t count)
{
    static const char others[] = "0159Aaz :=(){}[]\"/*\n\x80\xC3";
    struct bactool_outcome told = UNTOLD;
    uint8_t *out = cleared(bench.out, count);
    EXPECT(bactool_read(line, length, NULL, 0, &told) == BACTOOL_NO_ROOM && tells(told, 0, 0, count, 0));
    EXPECT(bactool_read(line, length, out, count - 1, &told) == BACTOOL_NO_ROOM && is_kept(bench.out, count));
    EXPECT(bactool_read(line, length, out, count, &told) == BACTOOL_OK && tells(told, 0, 0, count, 0));
    EXPECT(memcmp(out, canonical, count) == 0);
    if (length > 400)
        return;
    char changed[402];
    for (size_t k = 0; k < length; k += few ? 8u : 1u) {
        uint32_t code = bactool_read(line, k, NULL, 0, &told);
        EXPECT(code == BACTOOL_NO_ROOM || (code == BACTOOL_REFUSED && says(told, BACTOOL_SHORT, k, 0)));
        memcpy(changed, line, length);
        changed[k] = others[(k * 7 + count) % (sizeof others - 1)];
        try_changed_line(bench, changed, length, k);
        memcpy(changed + k + 1, line + k, length - k);
        changed[k] = line[k];
        try_changed_line(bench, changed, length + 1, k);
        memcpy(changed + k, line + k + 1, length - k - 1);
        try_changed_line(bench, changed, length - 1, k);
    }
}

/* Decodes octets that are accepted: the fields, the line that they make, and every room for short frames. */
static void try_decoded(struct bench bench, const uint8_t *octets, size_t length, const uint8_t *canonical,
                        size_t count, bool in_each_room)
{
    struct bactool_outcome told = UNTOLD;
    EXPECT(bactool_decode(octets, length, NULL, 0, NULL, 0, &told) == BACTOOL_NO_ROOM);
    size_t fields = told.fields;
    EXPECT(tells(told, 0, 0, count, fields) && 2 < fields && fields <= 2 * count + 2);
    EXPECT(bactool_decode(octets, length, cleared(bench.out, count), count, bench.known, FIELDS, &told) == BACTOOL_OK);
    EXPECT(tells(told, 0, 0, count, fields));
    try_places(canonical, count, bench.known, fields);
    try_encoded(bench, canonical, count, bench.known, fields);
    EXPECT(bactool_decode(octets, length, cleared(bench.out, count), count, bench.known, FIELDS, &told) == BACTOOL_OK);

    size_t line_length = line_of_fields(canonical, bench.known, fields, bench.line);
    uint8_t *line = cleared(bench.out, TEXT);
    EXPECT(bactool_show(octets, length, (char *)line, TEXT, &told) == BACTOOL_OK && told.count == line_length);
    EXPECT(memcmp(line, bench.line, line_length) == 0);
    try_line(bench, bench.line, line_length, canonical, count);

    const size_t rooms[][2] = {
        {0, 0}, {count, fields}, {count - 1, fields}, {count, fields - 1}, {count + 7, fields + 1},
        /* with room for the fields of every frame of so many octets they are not counted first */
        {count, 2 * count + 1}, {count, 2 * count + 2}, {count - 1, 2 * count + 2}};
    for (size_t k = 0; k < sizeof rooms / sizeof *rooms; k++)
        try_room(bench, octets, length, canonical, count, fields, rooms[k][0], rooms[k][1], true);
    if (!in_each_room)
        return;
    size_t step = 1 + count / 512, steps = 1 + fields / 512;
    for (size_t room = 0; room < count; room += step)
        try_room(bench, octets, length, canonical, count, fields, room, fields, room % 2 == 0);
    for (size_t most = 0; most < fields; most += steps)
        try_room(bench, octets, length, canonical, count, fields, count, most, most % 2 == 0);
    try_room(bench, octets, length, canonical, count, fields, 0, 0, false);
    try_room(bench, octets, length, canonical, count, fields, 0, fields, false);
    try_room(bench, octets, length, canonical, count, fields, count, 0, false);
}

/* ---- pieces */

static struct bactool_piece *cleared_pieces(struct bench bench, size_t most)
{
    return (struct bactool_piece *)cleared(bench.fields, most * sizeof(struct bactool_piece));
}

static bool is_same_piece(struct bactool_piece left, struct bactool_piece right)
{
    return left.place == right.place && left.length == right.length && left.head == right.head
           && left.depth == right.depth && left.kind == right.kind && left.tag == right.tag && left.number == right.number;
}

/* Explains with room for so many pieces: the first ones are written, and nothing else. */
static void try_most(struct bench bench, const uint8_t *octets, size_t length, size_t count, size_t most)
{
    struct bactool_outcome told = UNTOLD;
    struct bactool_piece *pieces = cleared_pieces(bench, most);
    uint32_t code = bactool_explain(octets, length, most == 0 ? NULL : pieces, most, &told);
    size_t written = most < count ? most : count;
    EXPECT(code != BACTOOL_NO_MEMORY && told.fields == count);
    for (size_t k = 0; k < written; k++)
        EXPECT(is_same_piece(pieces[k], bench.explained[k]));
    EXPECT(all_kept((uint8_t *)pieces - BEHIND, BEHIND));
    EXPECT(all_kept((uint8_t *)(pieces + written), (most - written) * sizeof *pieces));
}

/* The members of a piece agree with one another. */
static bool is_whole(struct bactool_piece piece)
{
    bool has_tag = piece.kind == BACTOOL_PIECE_ELEMENT || piece.kind == BACTOOL_PIECE_UNJUDGED;
    bool has_number = has_tag || piece.kind == BACTOOL_PIECE_REFUSED;
    return BACTOOL_PIECE_VERSION <= piece.kind && piece.kind <= BACTOOL_PIECE_REST && piece.tag <= BACTOOL_TAG_CLOSING
           && has_tag == (piece.tag != 0) && has_tag == (piece.head > 0) && piece.head <= piece.length
           && (has_number || piece.number == 0) && (piece.length > 0 || piece.kind == BACTOOL_PIECE_REFUSED);
}

/* The words of a piece are written where there is room for them. */
static void try_words(struct bench bench, struct bactool_piece piece, const uint8_t *octets, size_t length)
{
    struct bactool_outcome told = UNTOLD;
    EXPECT(bactool_piece_text(&piece, octets, length, NULL, 0, &told) == BACTOOL_NO_ROOM);
    size_t count = told.count;
    EXPECT(says(told, 0, 0, count) && 0 < count && count <= TEXT / 2);
    char *out = (char *)cleared(bench.out, count);
    EXPECT(bactool_piece_text(&piece, octets, length, out, count - 1, &told) == BACTOOL_NO_ROOM);
    EXPECT(says(told, 0, 0, count) && is_kept(bench.out, count));
    EXPECT(bactool_piece_text(&piece, octets, length, out, count, &told) == BACTOOL_OK && says(told, 0, 0, count));
    EXPECT(all_kept((uint8_t *)out - BEHIND, BEHIND));
}

/* A piece that is none of these octets has words, or is refused. */
static void try_other_pieces(struct bench bench, struct bactool_piece piece, const uint8_t *octets, size_t length)
{
    const size_t sizes[] = {0, 1, length, length + 1, SIZE_MAX - 1, SIZE_MAX};
    const uint32_t numbers[] = {0, 1, 4, 5, 16, 36, 37, 255, 256, UINT32_MAX};
    for (size_t k = 0; k < 60; k++) {
        struct bactool_outcome told = UNTOLD;
        struct bactool_piece other = piece;
        size_t *const members[] = {&other.place, &other.length, &other.head, &other.depth};
        uint32_t *const words[] = {&other.kind, &other.tag, &other.number};
        *members[k % 4] = sizes[k % 6];
        *members[(k + 1) % 4] = sizes[k / 6 % 6];
        *words[k % 3] = numbers[k % 10];
        char *out = (char *)cleared(bench.out, 64);
        uint32_t code = bactool_piece_text(&other, octets, length, out, 64, &told);
        EXPECT(code == BACTOOL_OK || code == BACTOOL_NO_ROOM || code == BACTOOL_REFUSED);
        EXPECT(code == BACTOOL_OK ? told.count <= 64 : is_kept(bench.out, 64));
    }
}

/* Whether each of these lines has its offset, eight octets to a line. The data of a network message is cut where its fields
   begin, so the lines from there on are not looked at. */
static bool are_lines_of(const char *lines, size_t count, const struct bactool_piece *pieces, size_t most)
{
    const char *line = lines, *end = lines + count;
    size_t k = 0;
    for (; k < most && pieces[k].kind != BACTOOL_PIECE_DATA; k++) {
        for (size_t at = 0; at == 0 || at < pieces[k].length; at += 8) {
            char place[32];
            size_t width = (size_t)snprintf(place, sizeof place, "%4zu  ", pieces[k].place + at);
            const char *last = memchr(line, '\n', (size_t)(end - line));
            if (last == NULL || (size_t)(last - line) < width || memcmp(line, place, width) != 0)
                return false;
            line = last + 1;
        }
    }
    return end[-1] == '\n' && (line == end) == (k == most);
}

/* The lines of octets that have so many pieces, with the outcome of bactool_check: they are written where there is room for
   all of them. */
static void try_lines(struct bench bench, const uint8_t *octets, size_t length, uint32_t code,
                      struct bactool_outcome found, size_t pieces)
{
    struct bactool_outcome told = UNTOLD;
    EXPECT(bactool_explain_text(octets, length, NULL, 0, &told) == code);
    size_t count = told.count;
    EXPECT(tells(told, found.why, found.place, count, 0) && 0 < count && count < LINES - 8);
    const size_t rooms[] = {length % 2 == 0 ? count - 1 : count + 7, count};
    for (size_t k = 0; k < sizeof rooms / sizeof *rooms; k++) {
        uint8_t *out = cleared(bench.lines, rooms[k]);
        EXPECT(bactool_explain_text(octets, length, (char *)out, rooms[k], &told) == code);
        EXPECT(tells(told, found.why, found.place, count, 0));
        if (rooms[k] < count) {
            EXPECT(is_kept(bench.lines, rooms[k]));
        } else {
            EXPECT(are_lines_of((const char *)out, count, bench.explained, pieces));
            EXPECT(all_kept(out - BEHIND, BEHIND) && all_kept(out + count, rooms[k] - count));
        }
    }
}

/* The pieces of octets, with the outcome of bactool_check: one after the other they are the octets, and one is at the place
   of a refusal. */
static void try_explained(struct bench bench, const uint8_t *octets, size_t length, uint32_t code,
                          struct bactool_outcome found)
{
    struct bactool_outcome told = UNTOLD;
    struct bactool_piece *pieces = cleared_pieces(bench, length + 1);
    EXPECT(bactool_explain(octets, length, pieces, length + 1, &told) == code);
    size_t count = told.fields, end = 0, arrows = 0;
    EXPECT(tells(told, found.why, found.place, 0, count) && 0 < count && count <= length + 1);
    for (size_t k = 0; k < count; k++) {
        EXPECT(pieces[k].place == end && pieces[k].length <= length - end && is_whole(pieces[k]));
        end += pieces[k].length;
        if (pieces[k].kind == BACTOOL_PIECE_REFUSED) {
            EXPECT(pieces[k].place == found.place && pieces[k].number == found.why);
            EXPECT(pieces[k].length == (found.place < length));
            arrows++;
        }
        EXPECT(pieces[k].kind != BACTOOL_PIECE_REST || (k + 1 == count && arrows == 1));
    }
    EXPECT(end == length && arrows == (code == BACTOOL_REFUSED));
    EXPECT(all_kept((uint8_t *)(pieces + count), (length + 1 - count) * sizeof *pieces));
    memcpy(bench.explained, pieces, count * sizeof *pieces);
    const size_t rooms[] = {0, 1, count / 2, count - 1, count};
    for (size_t k = 0; k < sizeof rooms / sizeof *rooms; k++)
        try_most(bench, octets, length, count, rooms[k]);
    for (size_t k = 0; k < count && k < 24; k++)
        try_words(bench, bench.explained[k], octets, length);
    try_words(bench, bench.explained[count - 1], octets, length);
    try_lines(bench, octets, length, code, found, count);
    if (length % 16 == 0)
        try_other_pieces(bench, bench.explained[count / 2], octets, length);
}

/* ---- one input, by each call */

static size_t first_difference(const uint8_t *left, size_t left_length, const uint8_t *right, size_t right_length)
{
    size_t k = 0;
    while (k < left_length && k < right_length && left[k] == right[k])
        k++;
    return k;
}

/* A head before a call, which fills in the whole of it. */
static struct bactool_frame_head unknown_head(void)
{
    struct bactool_frame_head head;
    memset(&head, KEPT, sizeof head);
    return head;
}

/* The head of octets that are refused is that of the octets before the place. */
static void try_refused_head(const uint8_t *octets, size_t length, struct bactool_outcome found)
{
    struct bactool_outcome told = UNTOLD;
    struct bactool_frame_head head = unknown_head(), front = unknown_head();
    EXPECT(bactool_head(octets, length, &head, &told) == BACTOOL_REFUSED && says(told, found.why, found.place, 0));
    EXPECT(head.known <= BACTOOL_KNOWN_ALL && head.contents <= found.place);
    EXPECT((head.known == BACTOOL_KNOWN_NOTHING) == (found.place < 2));
    uint32_t code = bactool_head(octets, found.place, &front, &told);
    EXPECT(code == BACTOOL_OK || (code == BACTOOL_REFUSED && says(told, BACTOOL_SHORT, found.place, 0)));
    EXPECT((code == BACTOOL_OK) == (found.why == BACTOOL_TRAILING));
    EXPECT(memcmp(&head, &front, sizeof head) == 0);
}

/* The head of octets that are accepted is that of the canonical octets, and says what their first fields say. */
static void try_accepted_head(const uint8_t *octets, size_t length, const uint8_t *canonical, size_t canonical_length)
{
    struct bactool_outcome told = UNTOLD;
    struct bactool_frame_head head = unknown_head(), same = unknown_head();
    EXPECT(bactool_head(octets, length, &head, &told) == BACTOOL_OK && says(told, 0, 0, 0));
    EXPECT(head.known == BACTOOL_KNOWN_ALL && head.contents <= length);
    EXPECT(head.priority == (octets[1] & 3u) && head.reply == (octets[1] >> 2 & 1u));
    EXPECT((head.pdu == BACTOOL_PDU_MESSAGE) == (octets[1] >> 7 == 1));
    EXPECT(bactool_head(canonical, canonical_length, &same, &told) == BACTOOL_OK && says(told, 0, 0, 0));
    EXPECT(memcmp(&head, &same, sizeof head) == 0);
}

/* Octets that are accepted are cut if they have a Confirmed-Request or a ComplexACK in one piece, and its service is not
   too long. The records give the canonical octets again. */
static void try_cut_and_joined(struct bench bench, const uint8_t *octets, size_t length, const uint8_t *canonical,
                               size_t count)
{
    struct bactool_outcome told = UNTOLD;
    struct bactool_frame_head head = unknown_head();
    size_t size = 1 + length % 41;
    EXPECT(bactool_head(canonical, count, &head, &told) == BACTOOL_OK);
    bool has_service = (head.pdu == BACTOOL_PDU_CONFIRMED || head.pdu == BACTOOL_PDU_COMPLEX_ACK) && head.segmented == 0;
    size_t service = count - head.contents;
    uint32_t wanted = !has_service                        ? BACTOOL_NO_SERVICE
                      : service > LONGEST                 ? BACTOOL_TOO_LONG
                      : service > size * MOST_SEGMENTS    ? BACTOOL_TOO_MANY
                                                          : BACTOOL_OK;
    uint8_t *out = cleared(bench.out, TEXT / 2);
    uint32_t code = bactool_cut(octets, length, size, 127, out, TEXT / 2, &told);
    EXPECT(code == wanted && says(told, 0, 0, code == BACTOOL_OK ? told.count : 0));
    if (code != BACTOOL_OK) {
        EXPECT(is_kept(bench.out, TEXT / 2));
        return;
    }
    size_t room = told.count;
    const uint8_t *records = placed(bench.records, out, room);
    EXPECT(bactool_join(records, room, out, room, &told) == BACTOOL_OK && says(told, 0, 0, count));
    EXPECT(memcmp(out, canonical, count) == 0);
}

/* Octets that are refused: every call says so alike, and writes nothing. */
static void try_refused(struct bench bench, const uint8_t *octets, size_t length, struct bactool_outcome found)
{
    struct bactool_outcome told = UNTOLD;
    EXPECT(BACTOOL_SHORT <= found.why && found.why <= BACTOOL_DEPTH);
    EXPECT(found.place <= length && (found.why == BACTOOL_SHORT) == (found.place == length));
    EXPECT(bactool_check(octets, length, true, &told) == BACTOOL_REFUSED && says(told, found.why, found.place, 0));
    try_refused_head(octets, length, found);
    uint8_t *out = cleared(bench.out, length);
    EXPECT(normalise(octets, length, out, length, &told) == BACTOOL_REFUSED && says(told, found.why, found.place, 0));
    EXPECT(show(octets, length, out, length, &told) == BACTOOL_REFUSED && says(told, found.why, found.place, 0));
    EXPECT(bactool_decode(octets, length, out, length, cleared_fields(bench, 7), 7, &told) == BACTOOL_REFUSED);
    EXPECT(says(told, found.why, found.place, 0));
    EXPECT(bactool_decode(octets, length, NULL, 0, NULL, 0, &told) == BACTOOL_REFUSED);
    EXPECT(says(told, found.why, found.place, 0));
    EXPECT(bactool_cut(octets, length, 1, 1, out, length, &told) == BACTOOL_REFUSED && says(told, found.why, found.place, 0));
    EXPECT(is_kept(bench.out, length) && is_kept(bench.fields, 7 * sizeof(struct bactool_field)));
    EXPECT(bactool_same_meaning(octets, length, octets, length, &told) == BACTOOL_LEFT_REFUSED);
    EXPECT(says(told, found.why, found.place, 0));
    static const uint8_t who_is[] = {0x01, 0x00, 0x10, 0x08};
    EXPECT(bactool_same_meaning(who_is, sizeof who_is, octets, length, &told) == BACTOOL_RIGHT_REFUSED);
    EXPECT(says(told, found.why, found.place, 0));
}

/* Octets that are accepted: what is written is canonical, spells the same frame, and first differs at `place`. */
static void try_accepted(struct bench bench, const uint8_t *octets, size_t length, uint32_t code, size_t place,
                         bool in_each_room)
{
    struct bactool_outcome told;
    uint8_t *out = cleared(bench.out, length);
    EXPECT(normalise(octets, length, out, length, &told) == BACTOOL_OK);
    size_t canonical_length = told.count;
    EXPECT(says(told, 0, 0, canonical_length) && canonical_length <= length);
    const uint8_t *canonical = placed(bench.right, out, canonical_length);
    bool is_canonical = canonical_length == length && memcmp(canonical, octets, length) == 0;
    EXPECT(is_canonical == (code == BACTOOL_OK));
    EXPECT(is_canonical || place == first_difference(octets, length, canonical, canonical_length));
    EXPECT(bactool_check(canonical, canonical_length, true, &told) == BACTOOL_OK && says(told, 0, 0, 0));
    uint32_t strict = bactool_check(octets, length, true, &told);
    EXPECT(is_canonical ? strict == BACTOOL_OK && says(told, 0, 0, 0)
                        : strict == BACTOOL_REFUSED && says(told, BACTOOL_NOT_CANONICAL, place, 0));
    EXPECT(bactool_same_meaning(octets, length, canonical, canonical_length, &told) == BACTOOL_OK && says(told, 0, 0, 0));
    EXPECT(bactool_same_meaning(octets, length, octets, length, &told) == BACTOOL_OK && says(told, 0, 0, 0));
    try_accepted_head(octets, length, canonical, canonical_length);
    try_cut_and_joined(bench, octets, length, canonical, canonical_length);
    try_rooms(bench, normalise, octets, length, canonical_length);
    EXPECT(show(octets, length, out, 0, &told) == BACTOOL_NO_ROOM && told.count > 0 && told.count < TEXT);
    try_rooms(bench, show, octets, length, told.count);
    try_decoded(bench, octets, length, canonical, canonical_length, in_each_room);
}

/* Returns whether the octets are accepted. */
static bool try_input(struct bench bench, const uint8_t *input, size_t length, bool in_each_room)
{
    const uint8_t *octets = placed(bench.left, input, length);
    struct bactool_outcome told = UNTOLD;
    uint32_t code = bactool_check(octets, length, false, &told);
    try_explained(bench, octets, length, code, told);
    switch (code) {
    case BACTOOL_OK:
    case BACTOOL_TOLERATED:
        EXPECT(says(told, 0, code == BACTOOL_OK ? 0 : told.place, 0));
        try_accepted(bench, octets, length, code, told.place, in_each_room);
        break;
    case BACTOOL_REFUSED:
        EXPECT(says(told, told.why, told.place, 0));
        try_refused(bench, octets, length, told);
        break;
    default:
        EXPECT(!"a code of bactool_check");
    }
    EXPECT(length == 0 || memcmp(octets, input, length) == 0);
    return code != BACTOOL_REFUSED;
}

/* ---- inputs at the edges */

/* A ReadProperty-ACK with these elements as its value. */
static bool try_answer(struct bench bench, const uint8_t *elements, size_t length)
{
    static const uint8_t head[] = {0x01, 0x00, 0x30, 0x01, 0x0C, 0x0C, 0x00, 0x00, 0x00, 0x05, 0x19, 0x55, 0x3E};
    uint8_t octets[sizeof head + 256];
    memcpy(octets, head, sizeof head);
    memcpy(octets + sizeof head, elements, length);
    octets[sizeof head + length] = 0x3F;
    return try_input(bench, octets, sizeof head + length + 1, false);
}

/* Values at the ends of their types: numbers with the most digits, bits that begin with zeros, the longest heads. */
static void try_values(struct bench bench)
{
    static const uint8_t numbers[] = {
        0x25, 0x08, 0xFF, 0xFF, 0xFF, 0xFF, 0xFF, 0xFF, 0xFF, 0xFF, 0x21, 0x00,
        0x35, 0x08, 0x80, 0x00, 0x00, 0x00, 0x00, 0x00, 0x00, 0x00, 0x31, 0xFF,
        0x35, 0x08, 0x7F, 0xFF, 0xFF, 0xFF, 0xFF, 0xFF, 0xFF, 0xFF, 0x32, 0x00, 0x80,
        0x94, 0xFF, 0xFF, 0xFF, 0xFF, 0x44, 0x00, 0x00, 0x00, 0x01, 0x44, 0xFF, 0xFF, 0xFF, 0xFF,
        0x55, 0x08, 0x00, 0x00, 0x00, 0x00, 0x00, 0x00, 0x00, 0x01,
        0x55, 0x08, 0xFF, 0xFF, 0xFF, 0xFF, 0xFF, 0xFF, 0xFF, 0xFF, 0xC4, 0xFF, 0xFF, 0xFF, 0xFF};
    static const uint8_t others[] = {
        0x60, 0x71, 0x00, 0x72, 0xFF, 0x41, 0x81, 0x00, 0x82, 0x07, 0x80, 0x83, 0x00, 0x00, 0xFF, 0x82, 0x03, 0xFF,
        0x08, 0xE8, 0xF8, 0x0F, 0xF9, 0xFE, 0x00, 0xFE, 0xFE, 0x1E, 0x1F, 0x10, 0x11, 0xFF, 0xFE};
    EXPECT(try_answer(bench, numbers, sizeof numbers));
    EXPECT(try_answer(bench, others, sizeof others));
    EXPECT(try_answer(bench, others, 0));
    for (size_t length = 5; length < 250; length += 7) {
        const uint8_t head[] = {0x65, (uint8_t)length};
        uint8_t string[256];
        memset(string, 0x55, sizeof string);
        memcpy(string, head, sizeof head);
        EXPECT(try_answer(bench, string, sizeof head + length));
    }
}

/* Strings of up to four octets, from those where another rule of UTF-8, or of the line, begins or ends. */
static void try_strings(struct bench bench)
{
    static const uint8_t first[] = {0x00, 0x1F, 0x20, 0x21, 0x22, 0x23, 0x5B, 0x5C, 0x5D, 0x7E,
                                    0x7F, 0x80, 0xBF, 0xC0, 0xC1, 0xC2, 0xDF, 0xE0, 0xE1, 0xEC,
                                    0xED, 0xEE, 0xEF, 0xF0, 0xF1, 0xF3, 0xF4, 0xF5, 0xFF};
    static const uint8_t second[] = {0x7F, 0x80, 0x8F, 0x90, 0x9F, 0xA0, 0xBF, 0xC0};
    static const uint8_t later[] = {0x7F, 0x80, 0xBF, 0xC0};
    for (unsigned octet = 0; octet < 256; octet++)
        EXPECT(try_answer(bench, (const uint8_t[]){0x72, 0x00, (uint8_t)octet}, 3));
    for (size_t k = 0; k < sizeof first << 7; k++) {
        uint8_t string[] = {0x75, 0x00, 0x00, first[k >> 7], second[k >> 4 & 7], later[k >> 2 & 3], later[k & 3]};
        for (size_t length = k % 16 == 0 ? 2 : k % 4 == 0 ? 3 : 4; length <= (first[k >> 7] < 0xF0 ? 3 : 4); length++) {
            string[1] = (uint8_t)(1 + length);
            EXPECT(try_answer(bench, string, 3 + length));
        }
    }
}

/* Texts whose first octet is no character by itself, each with each second octet. The first one begins no character, or
   the second one continues none, or the line only ends too early. */
static void try_second_octets(void)
{
    static const char head[] = "prio=0 reply=0 ack id=1 ReadProperty object=0:5 property=85 value={s:\"";
    enum { START = sizeof head - 1 };
    char line[START + 2];
    memcpy(line, head, START);
    for (unsigned octets = 0x8000; octets <= 0xFFFF; octets++) {
        unsigned first = octets >> 8, second = octets & 0xFF;
        unsigned least = first == 0xE0 ? 0xA0 : first == 0xF0 ? 0x90 : 0x80;
        unsigned greatest = first == 0xED ? 0x9F : first == 0xF4 ? 0x8F : 0xBF;
        bool begins = 0xC2 <= first && first <= 0xF4, continues = least <= second && second <= greatest;
        size_t place = begins ? START + 1 + continues : START;
        struct bactool_outcome told = UNTOLD;
        line[START] = (char)first;
        line[START + 1] = (char)second;
        EXPECT(bactool_read(line, sizeof line, NULL, 0, &told) == BACTOOL_REFUSED);
        EXPECT(says(told, place == sizeof line ? BACTOOL_SHORT : BACTOOL_BAD_TEXT, place, 0));
    }
}

/* A long frame with as many fields as there can be: a ReadPropertyMultiple-ACK with an object and as many properties as
   have room, each with an empty value. */
static void try_most_fields(struct bench bench)
{
    static const uint8_t head[] = {0x01, 0x00, 0x30, 0x01, 0x0E, 0x0C, 0x00, 0x00, 0x00, 0x05, 0x1E};
    static const uint8_t property[] = {0x29, 0x55, 0x4E, 0x4F};
    static uint8_t octets[LONGEST];
    size_t length = sizeof head;
    memcpy(octets, head, sizeof head);
    for (; length + sizeof property < LONGEST; length += sizeof property)
        memcpy(octets + length, property, sizeof property);
    octets[length++] = 0x1F;
    EXPECT(try_input(bench, octets, length, false));
    /* prio, reply, ack, id, the service, the list, an item, its object and list; five for each; the three that end */
    size_t fields = 9 + (length - sizeof head - 1) / sizeof property * 5 + 3;
    struct bactool_outcome told = UNTOLD;
    EXPECT(bactool_decode(octets, length, NULL, 0, NULL, 0, &told) == BACTOOL_NO_ROOM);
    EXPECT(tells(told, 0, 0, length, fields));
}

/* A WriteProperty with priority 17, which no frame has at place 21, from device 0A on network 7. */
static void try_heads(void)
{
    static const uint8_t request[] = {0x01, 0x0C, 0x00, 0x07, 0x01, 0x0A, 0x00, 0x05, 0x03, 0x0F, 0x0C, 0x00, 0x40,
                                      0x00, 0x01, 0x19, 0x55, 0x3E, 0x44, 0x42, 0xC8, 0x00, 0x00, 0x3F, 0x49, 0x11};
    struct bactool_outcome told = UNTOLD;
    struct bactool_frame_head head = unknown_head();
    EXPECT(bactool_head(request, sizeof request, &head, &told) == BACTOOL_REFUSED);
    EXPECT(says(told, BACTOOL_CONTENT, 25, 0));
    EXPECT(head.known == BACTOOL_KNOWN_ALL && head.reply == 1 && head.priority == 0);
    EXPECT(head.destination.there == 0 && head.hops == 0);
    EXPECT(head.source.there == 1 && head.source.network == 7 && head.source.place == 5 && head.source.length == 1);
    EXPECT(head.pdu == BACTOOL_PDU_CONFIRMED && head.invoke == 3 && head.choice == 15 && head.contents == 10);
    EXPECT(head.segmented == 0 && head.more == 0 && head.sequence == 0 && head.window == 0 && head.reason == 0);
    EXPECT(bactool_head(request, 9, &head, &told) == BACTOOL_REFUSED && says(told, BACTOOL_SHORT, 9, 0));
    EXPECT(head.known == BACTOOL_KNOWN_ADDRESSES && head.source.network == 7 && head.invoke == 0 && head.contents == 0);
    EXPECT(bactool_head(request, 5, &head, &told) == BACTOOL_REFUSED && says(told, BACTOOL_SHORT, 5, 0));
    EXPECT(head.known == BACTOOL_KNOWN_CONTROL && head.reply == 1 && head.source.there == 0);
    EXPECT(bactool_head(NULL, 0, &head, &told) == BACTOOL_REFUSED && says(told, BACTOOL_SHORT, 0, 0));
    EXPECT(head.known == BACTOOL_KNOWN_NOTHING && head.reply == 0);

    /* A segment of a ComplexACK, and more follow; and a message of vendor 260. */
    static const uint8_t segment[] = {0x01, 0x00, 0x3C, 0x05, 0x02, 0x04, 0x0E, 0x01};
    EXPECT(bactool_head(segment, sizeof segment, &head, &told) == BACTOOL_OK && says(told, 0, 0, 0));
    EXPECT(head.pdu == BACTOOL_PDU_COMPLEX_ACK && head.segmented == 1 && head.more == 1 && head.invoke == 5);
    EXPECT(head.sequence == 2 && head.window == 4 && head.choice == 14 && head.contents == 7);
    static const uint8_t message[] = {0x01, 0x80, 0x80, 0x01, 0x04, 0xFF};
    EXPECT(bactool_head(message, sizeof message, &head, &told) == BACTOOL_OK && says(told, 0, 0, 0));
    EXPECT(head.pdu == BACTOOL_PDU_MESSAGE && head.message == 128 && head.vendor == 260 && head.contents == 5);
    EXPECT(head.invoke == 0 && head.choice == 0);
}

static void try_edges(struct bench bench)
{
    static uint8_t zeros[LONGEST], longest[LONGEST] = {0x01, 0x00, 0x10, 0x09};
    EXPECT(!try_input(bench, zeros, 0, false));
    EXPECT(!try_input(bench, zeros, LONGEST, false));
    EXPECT(try_input(bench, longest, LONGEST, false)); /* an opaque request with 65,531 octets */
    try_most_fields(bench);
    try_values(bench);
    try_strings(bench);
    try_second_octets();
    try_heads();

    struct bactool_outcome told = UNTOLD;
    EXPECT(bactool_check(NULL, 0, false, &told) == BACTOOL_REFUSED && says(told, BACTOOL_SHORT, 0, 0));
    EXPECT(bactool_explain(NULL, 0, NULL, 0, &told) == BACTOOL_REFUSED && tells(told, BACTOOL_SHORT, 0, 0, 1));
    EXPECT(bactool_explain_text(NULL, 0, NULL, 0, &told) == BACTOOL_REFUSED && told.count > 0);
    EXPECT(tells(told, BACTOOL_SHORT, 0, told.count, 0));
    EXPECT(bactool_normalise(NULL, 0, NULL, 0, &told) == BACTOOL_REFUSED && says(told, BACTOOL_SHORT, 0, 0));
    EXPECT(bactool_show(NULL, 0, NULL, 0, &told) == BACTOOL_REFUSED && says(told, BACTOOL_SHORT, 0, 0));
    EXPECT(bactool_same_meaning(NULL, 0, NULL, 0, &told) == BACTOOL_LEFT_REFUSED && says(told, BACTOOL_SHORT, 0, 0));
    EXPECT(bactool_same_meaning(longest, 4, NULL, 0, &told) == BACTOOL_RIGHT_REFUSED && says(told, BACTOOL_SHORT, 0, 0));
    EXPECT(bactool_normalise(longest, 4, NULL, 0, &told) == BACTOOL_NO_ROOM && says(told, 0, 0, 4));
    EXPECT(bactool_show(longest, 4, NULL, 0, &told) == BACTOOL_NO_ROOM && told.count > 0);
    EXPECT(bactool_decode(NULL, 0, NULL, 0, NULL, 0, &told) == BACTOOL_REFUSED && says(told, BACTOOL_SHORT, 0, 0));
    EXPECT(bactool_encode(NULL, 0, NULL, 0, NULL, 0, &told) == BACTOOL_REFUSED && says(told, BACTOOL_SHORT, 0, 0));
    EXPECT(bactool_decode(longest, 4, NULL, 0, NULL, 0, &told) == BACTOOL_NO_ROOM && tells(told, 0, 0, 4, 6));
    EXPECT(bactool_cut(NULL, 0, 0, 0, NULL, 0, &told) == BACTOOL_REFUSED && says(told, BACTOOL_SHORT, 0, 0));
    EXPECT(bactool_join(NULL, 0, NULL, 0, &told) == BACTOOL_INCOMPLETE && says(told, 0, 0, 0));
    EXPECT(bactool_find(NULL, 0, BACTOOL_FIELD_OBJECT) == NULL);
    EXPECT(bactool_version() == BACTOOL_VERSION);
}

/* A text with this number, by a call that writes it where it has room: in each room. */
static void try_text(struct bench bench, size_t (*text)(uint32_t, char *, size_t), uint32_t number, const char *wanted)
{
    size_t length = strlen(wanted);
    for (size_t room = 0; room <= length + 2; room++) {
        uint8_t *out = cleared(bench.out, room);
        EXPECT(text(number, (char *)out, room) == length);
        if (room < length) {
            EXPECT(is_kept(bench.out, room));
        } else {
            EXPECT(memcmp(out, wanted, length) == 0 && all_kept(out + length, room - length));
        }
    }
    EXPECT(text(number, NULL, 0) == length);
}

static size_t reason(uint32_t why, char *out, size_t room) { return bactool_reason(why, out, room); }
static size_t name(uint32_t number, char *out, size_t room) { return bactool_name(number, out, room); }

static void try_names(struct bench bench)
{
    for (uint32_t number = 0; number < NAMES; number++) {
        const char *word = named[number].word;
        try_text(bench, name, number, word != NULL ? word : "");
        EXPECT(word == NULL || strlen(word) <= 32);
    }
    const uint32_t others[] = {NAMES, 256 + BACTOOL_FIELD_OBJECT, UINT32_MAX - 1, UINT32_MAX};
    for (size_t k = 0; k < sizeof others / sizeof *others; k++)
        try_text(bench, name, others[k], "");
}

static void try_reasons(struct bench bench)
{
    static const char *const names[] = {
        [0] = "",
        [BACTOOL_SHORT] = "Short",
        [BACTOOL_TRAILING] = "Trailing",
        [BACTOOL_BAD_VERSION] = "Version",
        [BACTOOL_ADDRESS] = "Address",
        [BACTOOL_PDU_TYPE] = "PduType",
        [BACTOOL_WINDOW] = "Window",
        [BACTOOL_TAG] = "Tag",
        [BACTOOL_LENGTH] = "Length",
        [BACTOOL_CONTENT] = "Content",
        [BACTOOL_DEPTH] = "Depth",
        [BACTOOL_NOT_CANONICAL] = "NotCanonical",
        [BACTOOL_OUT_OF_MEMORY] = "OutOfMemory",
        [BACTOOL_BAD_NAME] = "Name",
        [BACTOOL_BAD_NUMBER] = "Number",
        [BACTOOL_BAD_CONTENTS] = "Contents",
        [BACTOOL_BAD_TEXT] = "Text",
        [BACTOOL_BAD_TEXT + 1] = "",
    };
    const uint32_t count = sizeof names / sizeof *names;
    for (uint32_t why = 0; why < count; why++)
        try_text(bench, reason, why, names[why]);
    try_text(bench, reason, UINT32_MAX, "");
}

enum { CALLS = 10 };

/* The fields that octets come to, the canonical octets, their line, and the first piece of the octets. */
struct said {
    const struct bactool_field *fields;
    const uint8_t *octets;
    const char *line;
    size_t count, length, line_length;
    struct bactool_piece piece;
};

/* One of the seven calls that read a frame, one of the two that make a frame of its fields or of its line, or the one that
   writes the words of a piece, with room for half a yard, and for some fields or pieces. */
static uint32_t call(int job, struct bench bench, const uint8_t *octets, size_t length, struct said said,
                     struct bactool_outcome *told)
{
    uint8_t *out = cleared(bench.out, TEXT / 2);
    struct bactool_field *fields = cleared_fields(bench, SOME_FIELDS);
    return job == 0   ? bactool_check(octets, length, false, told)
           : job == 1 ? normalise(octets, length, out, TEXT / 2, told)
           : job == 2 ? show(octets, length, out, TEXT / 2, told)
           : job == 3 ? bactool_decode(octets, length, out, TEXT / 2, fields, SOME_FIELDS, told)
           : job == 4 ? bactool_same_meaning(octets, length, octets, length, told)
           : job == 5 ? bactool_encode(said.fields, said.count, said.octets, said.length, out, TEXT / 2, told)
           : job == 6 ? bactool_read(said.line, said.line_length, out, TEXT / 2, told)
           : job == 7 ? bactool_explain(octets, length, (struct bactool_piece *)fields, SOME_PIECES, told)
           : job == 8 ? bactool_explain_text(octets, length, (char *)out, TEXT / 2, told)
                      : bactool_piece_text(&said.piece, octets, length, (char *)out, TEXT / 2, told);
}

/* Each allocation refused in turn, with all after it or alone, till none is left. Until then a call reports it and writes
   nothing; where others are granted it may also do without, and then it ends as with all of them. */
static void try_without_memory(struct bench bench, const uint8_t *input, size_t length)
{
    static uint8_t whole[TEXT / 2], all_fields[SOME_FIELDS * sizeof(struct bactool_field)], canonical[LONGEST];
    const uint8_t *octets = placed(bench.left, input, length);
    struct bactool_outcome read = {0, 0, 0, 0};
    bactool_decode(octets, length, canonical, LONGEST, bench.known, FIELDS, &read);
    struct bactool_outcome shown = {0, 0, 0, 0};
    show(octets, length, (uint8_t *)bench.line, TEXT, &shown);
    struct said said = {bench.known, canonical, bench.line, read.fields, read.count, shown.count, {0, 0, 0, 0, 0, 0, 0}};
    bactool_explain(octets, length, &said.piece, 1, &(struct bactool_outcome){0, 0, 0, 0});
    for (int job = 0; job < 2 * CALLS; job++) {
        struct bactool_outcome wanted = UNTOLD;
        uint32_t ends = call(job % CALLS, bench, octets, length, said, &wanted);
        EXPECT(ends == BACTOOL_OK || ends == BACTOOL_TOLERATED || ends == BACTOOL_REFUSED
               || ends == BACTOOL_LEFT_REFUSED || (ends == BACTOOL_NO_ROOM && wanted.fields > SOME_FIELDS));
        memcpy(whole, bench.out.end - sizeof whole, sizeof whole);
        memcpy(all_fields, bench.fields.end - sizeof all_fields, sizeof all_fields);
        alone = job < CALLS;
        was_refused = true;
        for (long refused = 0; was_refused; refused++) {
            struct bactool_outcome told = UNTOLD;
            was_refused = false;
            left = refused;
            uint32_t code = call(job % CALLS, bench, octets, length, said, &told);
            left = -1;
            refusals += was_refused;
            if (was_refused && (!alone || code == BACTOOL_NO_MEMORY)) {
                EXPECT(code == BACTOOL_NO_MEMORY && says(told, BACTOOL_OUT_OF_MEMORY, 0, 0));
                EXPECT(is_kept(bench.out, TEXT / 2) && is_kept(bench.fields, sizeof all_fields));
            } else {
                EXPECT(code == ends && tells(told, wanted.why, wanted.place, wanted.count, wanted.fields));
                EXPECT(memcmp(bench.out.end - sizeof whole, whole, sizeof whole) == 0);
                EXPECT(memcmp(bench.fields.end - sizeof all_fields, all_fields, sizeof all_fields) == 0);
            }
        }
    }
}

/* ---- random inputs */

static uint8_t file[1 << 20];
static size_t file_length;
static size_t records[4096], record_count;

/* A record with a few octets changed, cut off or put in; or one time in eight octets by chance. */
static size_t draw(uint64_t *state, uint8_t *input)
{
    size_t length;
    if (drawn(state) % 8 == 0) {
        length = drawn(state) % 64;
        for (size_t k = 0; k < length; k++)
            input[k] = (uint8_t)drawn(state);
        if (length > 1)
            input[0] = 1;
        return length;
    }
    size_t start = records[drawn(state) % record_count];
    length = (size_t)file[start] << 8 | file[start + 1];
    memcpy(input, file + start + 2, length);
    for (size_t changes = drawn(state) % 4; changes > 0 && length > 0; changes--) {
        size_t place = drawn(state) % length;
        switch (drawn(state) % 4) {
        case 0:
            input[place] = (uint8_t)drawn(state);
            break;
        case 1:
            input[place] ^= (uint8_t)(1 << drawn(state) % 8);
            break;
        case 2:
            length = place;
            break;
        default:
            if (length == LONGEST)
                break;
            memmove(input + place + 1, input + place, length - place);
            input[place] = (uint8_t)drawn(state);
            length++;
        }
    }
    return length;
}

/* ---- random fields */

static bool has_contents(uint32_t name)
{
    switch (name) {
    case BACTOOL_FIELD_DESTINATION:
    case BACTOOL_FIELD_SOURCE:
    case BACTOOL_FIELD_OCTETS:
    case BACTOOL_FIELD_PORT_INFO:
    case BACTOOL_FIELD_DATA:
    case BACTOOL_FIELD_OCTET_STRING:
    case BACTOOL_FIELD_CHARACTER_STRING:
    case BACTOOL_FIELD_BIT_STRING:
    case BACTOOL_FIELD_DATE:
    case BACTOOL_FIELD_TIME_OF_DAY:
    case BACTOOL_FIELD_CONTEXT_PRIMITIVE:
        return true;
    default:
        return false;
    }
}

/* Fields that are accepted are those of the frame whose octets are written. */
static void try_said(struct bench bench, const struct bactool_field *fields, size_t most, const uint8_t *octets, size_t length,
                     size_t count)
{
    struct bactool_outcome told = UNTOLD;
    uint8_t *out = cleared(bench.out, count);
    EXPECT(bactool_encode(fields, most, octets, length, out, count, &told) == BACTOOL_OK && told.count == count);
    struct bactool_field *found = cleared_fields(bench, most);
    EXPECT(bactool_decode(out, count, (uint8_t *)bench.line, TEXT, found, most, &told) == BACTOOL_OK);
    EXPECT(tells(told, 0, 0, count, most));
    for (size_t k = 0; k < most; k++) {
        EXPECT(found[k].name == fields[k].name && found[k].number == fields[k].number);
        if (!has_contents(fields[k].name))
            continue;
        const uint8_t *said = octets + fields[k].place + fields[k].head, *written = out + found[k].place + found[k].head;
        EXPECT(found[k].length == fields[k].length && memcmp(said, written, found[k].length) == 0);
    }
}

/* Encodes fields. If they are refused, the fields before the index are all of a frame, or too few, as shorter ones are;
   and with one more field, or with all, the refusal is the same. */
static void try_fields(struct bench bench, const struct bactool_field *fields, size_t most, const uint8_t *octets,
                       size_t length, size_t fewer)
{
    struct bactool_outcome told = UNTOLD, front = UNTOLD;
    uint32_t code = bactool_encode(fields, most, octets, length, NULL, 0, &told);
    if (code == BACTOOL_NO_ROOM) {
        try_said(bench, fields, most, octets, length, told.count);
        return;
    }
    EXPECT(code == BACTOOL_REFUSED && told.place <= most && says(told, told.why, told.place, 0));
    EXPECT((told.why == BACTOOL_SHORT) == (told.place == most));
    code = bactool_encode(fields, told.place, octets, length, NULL, 0, &front);
    bool whole = code == BACTOOL_NO_ROOM;
    EXPECT(whole || (code == BACTOOL_REFUSED && says(front, BACTOOL_SHORT, told.place, 0)));
    fewer %= told.place + 1;
    code = bactool_encode(fields, fewer, octets, length, NULL, 0, &front);
    EXPECT(code == BACTOOL_NO_ROOM || (code == BACTOOL_REFUSED && says(front, BACTOOL_SHORT, fewer, 0)));
    if (told.place == most)
        return;
    EXPECT(whole ? told.why != BACTOOL_BAD_NAME : told.why != BACTOOL_TRAILING);
    code = bactool_encode(fields, told.place + 1, octets, length, NULL, 0, &front);
    EXPECT(code == BACTOOL_REFUSED && says(front, told.why, told.place, 0));
}

/* A field by chance, near those that frames have. */
static struct bactool_field drawn_field(uint64_t *state, size_t length)
{
    uint64_t number = drawn(state) % 4 == 0 ? drawn(state) : drawn(state) % 20;
    return (struct bactool_field){(uint32_t)(drawn(state) % 150), number, drawn(state) % (length + 2), 0, drawn(state) % 4};
}

/* Changes fields at one place. Returns how many there are then. */
static size_t change(uint64_t *state, struct bactool_field *fields, size_t most, size_t length)
{
    size_t place = drawn(state) % most;
    struct bactool_field field = fields[place];
    switch (drawn(state) % 7) {
    case 0:
        memmove(fields + place, fields + place + 1, (most - place - 1) * sizeof *fields);
        return most - 1;
    case 1:
        memmove(fields + place + 1, fields + place, (most - place) * sizeof *fields);
        return most + 1;
    case 2:
        fields[place] = fields[most - 1];
        fields[most - 1] = field;
        return most;
    case 3:
        fields[place].number = drawn_field(state, length).number;
        return most;
    case 4:
        fields[place].place = (size_t)drawn(state);
        return most;
    case 5:
        fields[place].length = drawn(state) % 8;
        return most;
    default:
        fields[place] = drawn_field(state, length);
        return most;
    }
}

/* The fields of octets that are accepted, with one or two changes; or one time in eight fields by chance. */
static void try_drawn_fields(struct bench bench, uint64_t *state, const uint8_t *input, size_t length, uint8_t *canonical)
{
    struct bactool_outcome told = UNTOLD;
    EXPECT(bactool_decode(input, length, canonical, LONGEST, bench.known, FIELDS - 2, &told) == BACTOOL_OK);
    size_t most = told.fields, count = told.count;
    if (drawn(state) % 8 == 0)
        for (most = 1 + drawn(state) % 12, length = 0; length < most; length++)
            bench.known[length] = drawn_field(state, count);
    most = change(state, bench.known, most, count);
    if (drawn(state) % 2 == 0 && most > 0)
        most = change(state, bench.known, most, count);
    try_fields(bench, bench.known, most, canonical, count, (size_t)drawn(state));
}

/* ---- messages in segments */

/* Example 4: its service has 14 octets. */
static const uint8_t plain[] = {0x01, 0x00};
static const uint8_t answer_service[] = {0x0C, 0x00, 0x00, 0x00, 0x05, 0x19, 0x55,
                                         0x3E, 0x44, 0x42, 0x90, 0x99, 0x9A, 0x3F};
static const struct message answer = {plain, sizeof plain, false, 0, 1, 12, answer_service, sizeof answer_service};

/* An answer of a service that is not decoded, with so many octets. */
static struct message opaque_answer(size_t length)
{
    static uint8_t service[LONGEST + 1];
    for (size_t k = service[1] == 0 ? 0 : sizeof service; k < sizeof service; k++)
        service[k] = (uint8_t)(k % 251);
    return (struct message){plain, sizeof plain, false, 0, 1, 26, service, length};
}

/* What a call is given beside octets and room. */
static _Thread_local size_t cut_size;
static _Thread_local uint8_t cut_window;

static uint32_t cut(const uint8_t *octets, size_t length, uint8_t *out, size_t room, struct bactool_outcome *told)
{
    return bactool_cut(octets, length, cut_size, cut_window, room == 0 ? NULL : out, room, told);
}

static uint32_t join(const uint8_t *octets, size_t length, uint8_t *out, size_t room, struct bactool_outcome *told)
{
    return bactool_join(octets, length, room == 0 ? NULL : out, room, told);
}

/* A call writes these octets in each room that has them, and nothing in a smaller one. */
static void try_written(struct bench bench, written_by *write, const uint8_t *octets, size_t length, const uint8_t *wanted,
                        size_t count, bool in_each_room)
{
    for (size_t room = 0; room <= count + 2; room += in_each_room || room + 1 >= count ? 1 : count - 1) {
        struct bactool_outcome told = UNTOLD;
        uint8_t *out = cleared(bench.out, room);
        uint32_t code = write(octets, length, out, room, &told);
        EXPECT(says(told, 0, 0, count));
        if (room < count) {
            EXPECT(code == BACTOOL_NO_ROOM && is_kept(bench.out, room));
        } else {
            EXPECT(code == BACTOOL_OK && memcmp(out, wanted, count) == 0);
            EXPECT(all_kept(out - BEHIND, BEHIND) && all_kept(out + count, room - count));
        }
    }
}

/* A call writes nothing, and says this. */
static void try_unwritten(struct bench bench, written_by *write, const uint8_t *octets, size_t length, uint32_t code,
                          struct bactool_outcome wanted)
{
    for (size_t room = 0; room <= 2 * LONGEST; room += LONGEST) {
        struct bactool_outcome told = UNTOLD;
        EXPECT(write(octets, length, cleared(bench.out, room), room, &told) == code);
        EXPECT(says(told, wanted.why, wanted.place, wanted.count) && is_kept(bench.out, room));
    }
}

/* A message is cut into the records that are made by hand. */
static void try_cut(struct bench bench, const struct message *message, size_t size, uint8_t window, bool in_each_room)
{
    const uint8_t *whole = placed(bench.left, bench.made, put_whole(message, bench.made));
    size_t length = (size_t)(bench.left.end - whole), count = put_segments(message, size, window, bench.made);
    cut_size = size, cut_window = window;
    try_written(bench, cut, whole, length, bench.made, count, in_each_room);
}

/* It is not cut, for this reason. */
static void try_uncut(struct bench bench, const struct message *message, size_t size, uint8_t window, uint32_t code)
{
    const uint8_t *whole = placed(bench.left, bench.made, put_whole(message, bench.made));
    cut_size = size, cut_window = window;
    try_unwritten(bench, cut, whole, (size_t)(bench.left.end - whole), code, (struct bactool_outcome){0, 0, 0, 0});
}

/* Records are joined to a message. */
static void try_joined(struct bench bench, const uint8_t *records, size_t length, const struct message *message,
                       bool in_each_room)
{
    size_t count = put_whole(message, bench.made);
    try_written(bench, join, placed(bench.records, records, length), length, bench.made, count, in_each_room);
}

/* They are not joined: this code, with this outcome, or with this place and nothing else. */
static void try_unjoined_for(struct bench bench, const uint8_t *records, size_t length, uint32_t code,
                             struct bactool_outcome wanted)
{
    try_unwritten(bench, join, placed(bench.records, records, length), length, code, wanted);
}

static void try_unjoined(struct bench bench, const uint8_t *records, size_t length, uint32_t code, size_t place)
{
    try_unjoined_for(bench, records, length, code, (struct bactool_outcome){0, place, 0, 0});
}

/* The numbers of some segments, in the order in which they come. */
struct delivery {
    size_t count, numbers[2 * MOST_SEGMENTS + 2];
};

/* Puts the records of these segments. Returns how many octets they have. */
static size_t put_delivery(const struct message *message, size_t size, const struct delivery *delivery, uint8_t *out)
{
    size_t length = 0;
    for (size_t k = 0; k < delivery->count; k++)
        length += put_segment(message, size, 4, delivery->numbers[k], out + length);
    return length;
}

/* The segments of a message that came are joined, or the first one that is missing is told. */
static void try_delivery(struct bench bench, const struct message *message, size_t size, const struct delivery *delivery)
{
    bool came[MOST_SEGMENTS] = {false};
    for (size_t k = 0; k < delivery->count; k++)
        came[delivery->numbers[k]] = true;
    size_t missing = 0, length = put_delivery(message, size, delivery, bench.mixed);
    while (missing < segments_of(message, size) && came[missing])
        missing++;
    if (missing == segments_of(message, size))
        try_joined(bench, bench.mixed, length, message, false);
    else
        try_unjoined(bench, bench.mixed, length, BACTOOL_INCOMPLETE, missing);
}

/* Each order of four segments, with each one lost, and with each one doubled at each place. */
static void try_orders(struct bench bench)
{
    for (unsigned order = 0; order < 256; order++) {
        const size_t numbers[] = {order & 3, order >> 2 & 3, order >> 4 & 3, order >> 6};
        unsigned there = 0;
        for (size_t k = 0; k < 4; k++)
            there |= 1u << numbers[k];
        if (there != 15)
            continue;
        struct delivery all = {4, {numbers[0], numbers[1], numbers[2], numbers[3]}};
        try_delivery(bench, &answer, 4, &all);
        for (size_t one = 0; one < 4; one++) {
            struct delivery lost = {0, {0}};
            for (size_t k = 0; k < 4; k++)
                if (numbers[k] != one)
                    lost.numbers[lost.count++] = numbers[k];
            try_delivery(bench, &answer, 4, &lost);
            for (size_t place = 0; place <= 4; place++) {
                struct delivery doubled = {5, {0}};
                for (size_t k = 0; k < 5; k++)
                    doubled.numbers[k] = k == place ? one : numbers[k > place ? k - 1 : k];
                try_delivery(bench, &answer, 4, &doubled);
            }
        }
    }
}

/* All 256 segments there can be, backwards, with so many octets each; and with the last one or the first one lost. */
static void try_backwards(struct bench bench, size_t size, size_t length)
{
    struct message message = opaque_answer(length);
    struct delivery backwards = {MOST_SEGMENTS, {0}};
    for (size_t k = 0; k < MOST_SEGMENTS; k++)
        backwards.numbers[k] = MOST_SEGMENTS - 1 - k;
    EXPECT(segments_of(&message, size) == MOST_SEGMENTS);
    try_cut(bench, &message, size, 127, false);
    try_delivery(bench, &message, size, &backwards);
    backwards.count--;
    try_delivery(bench, &message, size, &backwards);
    backwards.count++;
    backwards.numbers[0] = 0;
    try_delivery(bench, &message, size, &backwards);
}

/* What a call to bactool_cut may be given: sizes, windows and lengths at their limits and above. */
static void try_limits(struct bench bench)
{
    for (size_t size = 1; size <= 16; size++)
        try_cut(bench, &answer, size, (uint8_t)size, size % 5 == 4);
    try_cut(bench, &answer, SIZE_MAX, 127, true);
    struct message none = opaque_answer(0), longest = opaque_answer(LONGEST), longer = opaque_answer(LONGEST + 1);
    struct message many = opaque_answer(MOST_SEGMENTS + 1);
    try_cut(bench, &none, 1, 1, true);
    try_cut(bench, &longest, 256, 4, false);
    try_cut(bench, &longest, LONGEST - 7, 4, false);
    try_uncut(bench, &longest, LONGEST - 6, 4, BACTOOL_TOO_LONG);
    try_uncut(bench, &longest, LONGEST, 4, BACTOOL_TOO_LONG);
    try_uncut(bench, &longest, SIZE_MAX, 4, BACTOOL_TOO_LONG);
    try_uncut(bench, &longest, 255, 4, BACTOOL_TOO_MANY);
    try_uncut(bench, &longer, 480, 4, BACTOOL_TOO_LONG);
    try_uncut(bench, &longer, 1, 4, BACTOOL_TOO_LONG);
    try_uncut(bench, &many, 1, 4, BACTOOL_TOO_MANY);
    try_uncut(bench, &answer, 0, 4, BACTOOL_BAD_SIZE);
    try_uncut(bench, &many, 0, 0, BACTOOL_BAD_SIZE);
    try_uncut(bench, &answer, 4, 0, BACTOOL_BAD_WINDOW);
    try_uncut(bench, &many, 1, 128, BACTOOL_BAD_WINDOW);
    try_uncut(bench, &answer, 4, 255, BACTOOL_BAD_WINDOW);
    try_backwards(bench, 1, 256);
    try_backwards(bench, 255, 256 * 255);
    try_backwards(bench, 256, LONGEST);
}

/* A request from one network to another, whose head differs in one bit from segment to segment. */
static void try_differences(struct bench bench)
{
    static const uint8_t npdu[] = {0x01, 0x2C, 0x00, 0x05, 0x01, 0x0A, 0x00, 0x07, 0x02, 0x01, 0x02, 0xFF};
    static const uint8_t service[] = {0xAA, 0xBB, 0xCC};
    const struct message request = {npdu, sizeof npdu, true, 0x05, 3, 17, service, sizeof service};
    /* Places in a record, and bits that are changed there: priority, reply expected; network and address of the destination;
       those of the source; hop count; whether, how many and how long segments are accepted; invoke id; choice. */
    const uint8_t others[][2] = {{3, 0x01},  {3, 0x04},  {4, 0x01},  {5, 0x01},  {7, 0x01},
                                 {8, 0x01},  {9, 0x01},  {11, 0x01}, {12, 0x01}, {13, 0x01},
                                 {14, 0x02}, {15, 0x10}, {15, 0x01}, {16, 0x01}, {19, 0x01}};
    /* Bits that are ignored, and the window. */
    const uint8_t same[][2] = {{3, 0x10}, {3, 0x40}, {14, 0x01}, {15, 0x80}, {18, 0x06}};
    size_t first = put_segment(&request, 1, 4, 0, bench.mixed);
    size_t length = put_segments(&request, 1, 4, bench.mixed);
    for (size_t k = 0; k < sizeof others / sizeof *others; k++) {
        bench.mixed[first + others[k][0]] ^= others[k][1];
        try_unjoined(bench, bench.mixed, length, BACTOOL_CONFLICT, 1);
        bench.mixed[first + others[k][0]] ^= others[k][1];
    }
    for (size_t k = 0; k < sizeof same / sizeof *same; k++) {
        bench.mixed[first + same[k][0]] ^= same[k][1];
        try_joined(bench, bench.mixed, length, &request, false);
        bench.mixed[first + same[k][0]] ^= same[k][1];
    }
    /* The other kind of message, with the same invoke id and choice. */
    struct message other = request;
    other.is_request = false;
    put_segment(&other, 1, 4, 1, bench.mixed + first);
    try_unjoined(bench, bench.mixed, 2 * first - 1, BACTOOL_CONFLICT, 1);
}

/* Segments that are of another message, or of none, after those of the example. */
static void try_misfits(struct bench bench)
{
    static const uint8_t other_piece[] = {0x0C, 0x00, 0x00, 0x00, 0x05, 0x19, 0x54, 0x3E, 0x44, 0x42};
    const struct message two = {plain, sizeof plain, false, 0, 2, 12, answer_service, sizeof answer_service};
    const struct message other = {plain, sizeof plain, false, 0, 1, 12, other_piece, sizeof other_piece};
    const struct message shorter = {plain, sizeof plain, false, 0, 1, 12, answer_service, 13};
    size_t length = put_segments(&answer, 4, 4, bench.mixed);
    try_joined(bench, bench.mixed, length, &answer, true);
    /* the same number of another message; another piece; the number after the last one; the last one is another one */
    try_unjoined(bench, bench.mixed, length + put_segment(&two, 4, 4, 1, bench.mixed + length), BACTOOL_CONFLICT, 4);
    try_unjoined(bench, bench.mixed, length + put_segment(&other, 4, 4, 1, bench.mixed + length), BACTOOL_CONFLICT, 4);
    try_unjoined(bench, bench.mixed, length + put_segment(&answer, 2, 4, 4, bench.mixed + length), BACTOOL_CONFLICT, 4);
    try_unjoined(bench, bench.mixed, length + put_segment(&other, 4, 4, 2, bench.mixed + length), BACTOOL_CONFLICT, 4);
    try_unjoined(bench, bench.mixed, length + put_segment(&shorter, 4, 4, 3, bench.mixed + length), BACTOOL_CONFLICT, 4);
    /* two messages, a segment of each in turn */
    length = 0;
    for (size_t number = 0; number < 4; number++) {
        length += put_segment(&answer, 4, 4, number, bench.mixed + length);
        length += put_segment(&two, 4, 4, number, bench.mixed + length);
    }
    try_unjoined(bench, bench.mixed, length, BACTOOL_CONFLICT, 1);
    /* the last one says that more follow, also number 255 */
    struct message all = opaque_answer(MOST_SEGMENTS);
    length = put_segments(&all, 1, 4, bench.mixed);
    bench.mixed[length - 6] |= 0x04;
    try_unjoined(bench, bench.mixed, length, BACTOOL_CONFLICT, MOST_SEGMENTS - 1);
    /* more octets than a message has, and as many */
    struct message longest = opaque_answer(LONGEST), longer = opaque_answer(LONGEST + 1);
    length = put_segments(&longer, 40000, 4, bench.mixed);
    try_unjoined(bench, bench.mixed, length, BACTOOL_TOO_LONG, 1);
    length = put_segments(&longest, 40000, 4, bench.mixed);
    try_joined(bench, bench.mixed, length, &longest, false);
}

/* The octets of all segments are those of no service of choice 12. */
static void try_no_service(struct bench bench, const uint8_t *service, size_t length, uint32_t why, size_t place)
{
    const struct message message = {plain, sizeof plain, false, 0, 1, 12, service, length};
    size_t count = put_segments(&message, 3, 4, bench.mixed);
    const struct bactool_outcome wanted = {why, place, 0, 0};
    try_unjoined_for(bench, bench.mixed, count, BACTOOL_SERVICE_REFUSED, wanted);
}

/* The records of the example are not joined with another one at this place among them. */
static void try_with(struct bench bench, size_t at, const uint8_t *record, uint32_t code, struct bactool_outcome wanted)
{
    size_t length = put_segments(&answer, 4, 4, bench.mixed), more = 2 + (size_t)record[1];
    memmove(bench.mixed + at + more, bench.mixed + at, length - at);
    memcpy(bench.mixed + at, record, more);
    try_unjoined_for(bench, bench.mixed, length + more, code, wanted);
}

/* Records that end early, at each octet; and one that is refused, or holds no segment, at each place among the others. */
static void try_records(struct bench bench)
{
    static const uint8_t cut_short[] = {0, 4, 0x01, 0x00, 0x3C, 0x01}, empty[] = {0, 0}, version[] = {0, 1, 0x02};
    static const uint8_t who_is[] = {0, 4, 0x01, 0x00, 0x10, 0x08}, message[] = {0, 3, 0x01, 0x80, 0x12};
    size_t ends[5] = {0};
    for (size_t k = 0; k < 4; k++)
        ends[k + 1] = ends[k] + put_segment(&answer, 4, 4, k, bench.made);
    put_segments(&answer, 4, 4, bench.mixed);
    for (size_t front = 0, index = 0; front < ends[4]; front++) {
        index += front == ends[index + 1];
        try_unjoined(bench, bench.mixed, front, front == ends[index] ? BACTOOL_INCOMPLETE : BACTOOL_TRUNCATED, index);
    }
    for (size_t k = 0; k <= 4; k++) {
        try_with(bench, ends[k], cut_short, BACTOOL_REFUSED, (struct bactool_outcome){BACTOOL_SHORT, 4, k, 0});
        try_with(bench, ends[k], empty, BACTOOL_REFUSED, (struct bactool_outcome){BACTOOL_SHORT, 0, k, 0});
        try_with(bench, ends[k], version, BACTOOL_REFUSED, (struct bactool_outcome){BACTOOL_BAD_VERSION, 0, k, 0});
        try_with(bench, ends[k], who_is, BACTOOL_NO_SEGMENT, (struct bactool_outcome){0, k, 0, 0});
        try_with(bench, ends[k], message, BACTOOL_NO_SEGMENT, (struct bactool_outcome){0, k, 0, 0});
    }
    try_no_service(bench, answer_service, 4, BACTOOL_SHORT, 4);
    try_no_service(bench, answer_service + 5, 9, BACTOOL_TAG, 0);
}

static void try_segments(struct bench bench)
{
    try_limits(bench);
    try_orders(bench);
    try_differences(bench);
    try_misfits(bench);
    try_records(bench);
}

/* ---- random records */

/* The records that octets begin with: how many there are, and how many of them are frames, up to the first that is none.
   Which segments they hold, and where the last record ends. */
struct walk {
    size_t count, frames, end;
    bool is_refused, came[MOST_SEGMENTS];
    struct bactool_outcome refusal;
};

static struct walk walked(const uint8_t *records, size_t length)
{
    struct walk walk = {0};
    for (size_t at = 0; at + 2 <= length; at = walk.end) {
        size_t size = (size_t)records[at] << 8 | records[at + 1];
        if (size > length - at - 2)
            break;
        struct bactool_frame_head head;
        if (!walk.is_refused && bactool_head(records + at + 2, size, &head, &walk.refusal) == BACTOOL_OK) {
            walk.frames++;
            if (head.segmented == 1)
                walk.came[head.sequence] = true;
        } else {
            walk.is_refused = true;
        }
        walk.count++;
        walk.end = at + 2 + size;
    }
    return walk;
}

/* Where the record with this index begins. */
static size_t place_of(const uint8_t *records, size_t index)
{
    size_t at = 0;
    while (index-- > 0)
        at += 2 + ((size_t)records[at] << 8 | records[at + 1]);
    return at;
}

/* Any octets are joined, or it is told truly why they are not. */
static void try_any_records(struct bench bench, const uint8_t *octets, size_t length)
{
    const uint8_t *records = placed(bench.records, octets, length);
    struct walk walk = walked(records, length);
    struct bactool_outcome told = UNTOLD, front = UNTOLD;
    uint8_t *out = cleared(bench.out, length);
    uint32_t code = bactool_join(records, length, out, length, &told);
    EXPECT(code == BACTOOL_OK || is_kept(bench.out, length));
    EXPECT((code == BACTOOL_REFUSED) == walk.is_refused);
    EXPECT((code == BACTOOL_TRUNCATED) == (!walk.is_refused && walk.end < length));
    size_t missing = 0;
    while (missing < MOST_SEGMENTS && walk.came[missing])
        missing++;
    switch (code) {
    case BACTOOL_OK: {
        size_t count = told.count;
        EXPECT(says(told, 0, 0, count) && count < length && all_kept(out + count, length - count));
        EXPECT(bactool_check(out, count, true, &told) == BACTOOL_OK);
        EXPECT(bactool_join(records, length, NULL, 0, &told) == BACTOOL_NO_ROOM && says(told, 0, 0, count));
        break;
    }
    case BACTOOL_REFUSED:
        EXPECT(says(told, walk.refusal.why, walk.refusal.place, walk.frames));
        break;
    case BACTOOL_TRUNCATED:
        EXPECT(says(told, 0, walk.count, 0));
        break;
    case BACTOOL_INCOMPLETE:
        EXPECT(says(told, 0, missing, 0) && missing < MOST_SEGMENTS);
        break;
    case BACTOOL_SERVICE_REFUSED:
        EXPECT(BACTOOL_SHORT <= told.why && told.why <= BACTOOL_DEPTH && missing > 0);
        EXPECT(says(told, told.why, told.place, 0));
        break;
    default:
        /* The records before it are of one message. */
        EXPECT(code == BACTOOL_NO_SEGMENT || code == BACTOOL_CONFLICT || code == BACTOOL_TOO_LONG);
        EXPECT(says(told, 0, told.place, 0) && told.place < walk.count);
        code = bactool_join(records, place_of(records, told.place), NULL, 0, &front);
        EXPECT(code == BACTOOL_NO_ROOM || code == BACTOOL_INCOMPLETE || code == BACTOOL_SERVICE_REFUSED);
    }
}

/* A message by chance, of at most so many octets, and its segments in an order by chance, some of them lost or doubled;
   then with an input among them, and with some octets changed. */
static void try_drawn_message(struct bench bench, uint64_t *state, size_t most, const uint8_t *input, size_t input_length)
{
    struct message message = opaque_answer(drawn(state) % 16 == 0 ? 0 : drawn_size(state, most));
    message.service += drawn(state) % 2 == 0 ? LONGEST - message.length : 0;
    message.is_request = drawn(state) % 2 == 0;
    message.accepts = (uint8_t)(drawn(state) & 0x7F);
    message.invoke = (uint8_t)drawn(state);
    size_t least = message.length / MOST_SEGMENTS + 1, size = drawn_size(state, LONGEST - 8);
    size = size < least ? least : size;
    try_cut(bench, &message, size, (uint8_t)(1 + drawn(state) % 127), false);

    size_t all = segments_of(&message, size), losses = drawn(state) % 3, doubles = drawn(state) % 3;
    struct delivery delivery = {0, {0}};
    for (size_t number = 0; number < all; number++)
        for (size_t times = drawn(state) % 64 < losses ? 0 : drawn(state) % 4 < doubles ? 2 : 1; times > 0; times--)
            delivery.numbers[delivery.count++] = number;
    for (size_t k = delivery.count; k > 1; k--) {
        size_t other = drawn(state) % k, number = delivery.numbers[k - 1];
        delivery.numbers[k - 1] = delivery.numbers[other];
        delivery.numbers[other] = number;
    }
    try_delivery(bench, &message, size, &delivery);

    size_t length = put_delivery(&message, size, &delivery, bench.mixed);
    size_t at = place_of(bench.mixed, drawn(state) % (delivery.count + 1));
    if (2 + input_length <= RECORDS - length) {
        memmove(bench.mixed + at + 2 + input_length, bench.mixed + at, length - at);
        bench.mixed[at] = (uint8_t)(input_length >> 8);
        bench.mixed[at + 1] = (uint8_t)input_length;
        memcpy(bench.mixed + at + 2, input, input_length);
        try_any_records(bench, bench.mixed, length + 2 + input_length);
        memmove(bench.mixed + at, bench.mixed + at + 2 + input_length, length - at);
    }
    for (size_t changes = 1 + drawn(state) % 3; changes > 0 && length > 0; changes--)
        bench.mixed[drawn(state) % (length < 64 ? length : 64)] ^= (uint8_t)(1 << drawn(state) % 8);
    try_any_records(bench, bench.mixed, length);
}

struct share {
    uint64_t state;
    unsigned long count, lists, accepted, messages;
};

static void *try_share(void *given)
{
    struct share *share = given;
    struct bench bench = new_bench();
    uint8_t *input = __real_malloc(LONGEST + 16), *canonical = __real_malloc(LONGEST);
    for (unsigned long tried = 0; tried < share->count; tried++) {
        size_t length = draw(&share->state, input);
        if (tried % 16 == 0) {
            try_drawn_message(bench, &share->state, few ? 1024 : LONGEST, input, length);
            share->messages++;
        }
        if (!try_input(bench, input, length, false))
            continue;
        share->accepted++;
        for (unsigned long k = 0; k < share->lists; k++)
            try_drawn_fields(bench, &share->state, input, length, canonical);
    }
    free(canonical);
    free(input);
    return NULL;
}

int main(int count_of_words, char **words)
{
    unsigned long count = count_of_words > 1 ? strtoul(words[1], NULL, 10) : 0;
    few = count_of_words > 2 && strcmp(words[2], "few") == 0;
    unsigned long lists = few ? 1 : 8;
    struct bench bench = new_bench();
    file_length = fread(file, 1, sizeof file, stdin);
    for (size_t at = 0; at + 2 <= file_length && record_count < 4096; at += 2 + ((size_t)file[at] << 8 | file[at + 1]))
        records[record_count++] = at;
    if (record_count == 0)
        return 2;
    try_edges(bench);
    try_reasons(bench);
    try_names(bench);
    try_segments(bench);
    for (size_t k = 0; k < record_count; k++) {
        size_t length = (size_t)file[records[k]] << 8 | file[records[k] + 1];
        EXPECT(try_input(bench, file + records[k] + 2, length, true));
        try_without_memory(bench, file + records[k] + 2, length);
        try_without_memory(bench, file + records[k] + 2, length - 1); /* most are refused */
    }
    for (size_t k = 0; k < NAMES; k++)
        EXPECT(was_seen[k] == (named[k].form != NO_FIELD));
    pthread_t threads[THREADS];
    struct share shares[THREADS];
    unsigned long accepted = 0, messages = 0;
    for (unsigned k = 0; k < THREADS; k++) {
        shares[k] = (struct share){0x9E3779B97F4A7C15u * (k + 1), count / THREADS, lists, 0, 0};
        if (pthread_create(&threads[k], NULL, try_share, &shares[k]) != 0)
            return 2;
    }
    for (unsigned k = 0; k < THREADS; k++) {
        pthread_join(threads[k], NULL);
        accepted += shares[k].accepted;
        messages += shares[k].messages;
    }
    printf("try-library: %zu records, %lu refused allocations, %lu random inputs, of which %lu were accepted, %lu lists of "
           "fields, and %lu messages in segments: %lu faults\n",
           record_count, refusals, count / THREADS * THREADS, accepted, lists * accepted, messages, faults);
    return faults != 0;
}
