/* SPDX-License-Identifier: Apache-2.0 OR MIT */
/*
 * Tries include/bactool.h and include/bactool_helpers.h with the library, for scripts/try-header: `try-header FRAMES
 * COUNT` takes the records of a file of so many frames apart and puts them together again, then makes and reads worked
 * examples of docs/EXAMPLES.md. It is C and C++, and prints a line for each thing that is wrong. scripts/try-header
 * makes header-lists.h of the lists of fields in the comment at bactool_encode.
 */
#include <bactool_helpers.h>
#include <bactool_names.h>
#include <stdio.h>
#include <stdlib.h>
#include <string.h>

#define SAY(name, number) {BACTOOL_FIELD_##name, number, 0, 0, 0}
#include "header-lists.h"

#define COUNT(array) (sizeof(array) / sizeof *(array))

enum { MOST_OCTETS = 70000, LONG = 300000, LONGEST_CONTENTS = 1048576 };

static unsigned faults;

#define EXPECT(holds)                                                     \
    do {                                                                  \
        if (!(holds) && faults++ < 20)                                    \
            printf("try-header: line %d: %s\n", __LINE__, #holds);        \
    } while (0)

/* A frame: the octets that are read, its canonical ones, and its fields. */
struct frame {
    uint8_t octets[MOST_OCTETS], canonical[MOST_OCTETS];
    struct bactool_field fields[BACTOOL_MOST_FIELDS(MOST_OCTETS)];
    size_t length, canonical_length, count;
};

static struct frame frame;

/* Decodes the octets of the frame, with room for as many fields as the header says are enough. */
static void decode(void)
{
    struct bactool_outcome outcome;
    uint32_t code = bactool_decode(frame.octets, frame.length, frame.canonical, frame.length, frame.fields,
                                   BACTOOL_MOST_FIELDS(frame.length), &outcome);
    EXPECT(code == BACTOOL_OK);
    EXPECT(outcome.fields <= BACTOOL_MOST_FIELDS(outcome.count));
    frame.canonical_length = code == BACTOOL_OK ? outcome.count : 0;
    frame.count = code == BACTOOL_OK ? outcome.fields : 0;
}

static void append(const uint8_t *octets, size_t length)
{
    memcpy(frame.octets + frame.length, octets, length);
    frame.length += length;
}

/* The octets of digits, with blanks between them. */
static size_t octets_of(const char *digits, uint8_t *out)
{
    size_t count = 0;
    unsigned octet = 0;
    for (int taken = 0; sscanf(digits, " %2x%n", &octet, &taken) == 1; digits += taken)
        out[count++] = BACTOOL_CAST(uint8_t, octet);
    return count;
}

static void decode_digits(const char *digits)
{
    frame.length = octets_of(digits, frame.octets);
    decode();
}

/* Whether fields are those of the frame with these octets. */
static bool make(const struct bactool_field *fields, size_t count, const uint8_t *contents, size_t length,
                 const char *digits)
{
    static uint8_t wanted[MOST_OCTETS], out[MOST_OCTETS];
    struct bactool_outcome outcome;
    size_t wanted_length = octets_of(digits, wanted);
    return bactool_encode(fields, count, contents, length, out, sizeof out, &outcome) == BACTOOL_OK
        && outcome.count == wanted_length && memcmp(out, wanted, wanted_length) == 0;
}

/* ---- The header itself */

static void try_numbers(void)
{
    static const uint32_t constant = BACTOOL_OBJECT(BACTOOL_TYPE_DEVICE, 4);
    EXPECT(constant == 0x02000004u);
    EXPECT(BACTOOL_OBJECT(1023, 4194303) == 0xFFFFFFFFu && BACTOOL_OBJECT(0, 0) == 0);
    EXPECT(BACTOOL_OBJECT_TYPE(0xFFFFFFFFu) == 1023 && BACTOOL_OBJECT_INSTANCE(0xFFFFFFFFu) == 4194303);
    EXPECT(BACTOOL_OBJECT_TYPE(UINT64_C(0x02000004)) == 8 && BACTOOL_OBJECT_INSTANCE(UINT64_C(0x02000004)) == 4);
    EXPECT(BACTOOL_MOST_FIELDS(0) == 2 && BACTOOL_MOST_FIELDS(1497) == 2996);
    EXPECT(bactool_version() == BACTOOL_VERSION && BACTOOL_HAS_ENCODE == 1 && BACTOOL_HAS_READ == 1);
    EXPECT(BACTOOL_HAS_HEAD == 1 && BACTOOL_HAS_CUT == 1 && BACTOOL_HAS_JOIN == 1);
    EXPECT(BACTOOL_HAS_EXPLAIN == 1 && BACTOOL_HAS_PIECE_TEXT == 1);
}

/* In C++ the names are a type, beside the call bactool_name. */
#ifdef __cplusplus
static size_t word_of(bactool_field_name name, char *out, size_t room)
#else
static size_t word_of(enum bactool_field_name name, char *out, size_t room)
#endif
{
    return bactool_name(BACTOOL_CAST(uint32_t, name), out, room);
}

static void try_calls(void)
{
    uint32_t (*check)(const uint8_t *, size_t, bool, struct bactool_outcome *) = bactool_check;
    struct bactool_outcome outcome;
    char word[32];
    EXPECT(check(frame.octets, 0, false, &outcome) == BACTOOL_REFUSED && outcome.why == BACTOOL_SHORT);
    EXPECT(bactool_check(NULL, 0, false, &outcome) == BACTOOL_REFUSED && outcome.why == BACTOOL_SHORT);
    EXPECT(word_of(BACTOOL_FIELD_OBJECT, word, sizeof word) == 6 && memcmp(word, "object", 6) == 0);
}

/* Example 24: a frame is cut into the records of its segments, and they are joined to it. */
static void try_segments(void)
{
    static uint8_t whole[64], wanted[64], records[64], joined[64];
    struct bactool_outcome outcome;
    size_t length = octets_of("010030010C 0C00000005 1955 3E 444290999A 3F", whole);
    size_t count = octets_of("000D 01003C0100040C 0C0000000519 000D 01003C0101040C 553E44429099 0009 0100380102040C 9A3F",
                             wanted);
    EXPECT(bactool_cut(whole, length, 6, 4, NULL, 0, &outcome) == BACTOOL_NO_ROOM && outcome.count == count);
    EXPECT(bactool_cut(whole, length, 6, 4, records, sizeof records, &outcome) == BACTOOL_OK && outcome.count == count);
    EXPECT(memcmp(records, wanted, count) == 0);
    EXPECT(bactool_join(records, count, NULL, 0, &outcome) == BACTOOL_NO_ROOM && outcome.count == length);
    EXPECT(bactool_join(records, count, joined, count, &outcome) == BACTOOL_OK && outcome.count == length);
    EXPECT(memcmp(joined, whole, length) == 0);
    EXPECT(bactool_join(records, 15, NULL, 0, &outcome) == BACTOOL_INCOMPLETE && outcome.place == 1);
    EXPECT(bactool_join(NULL, 0, NULL, 0, &outcome) == BACTOOL_INCOMPLETE && outcome.place == 0);
    EXPECT(bactool_cut(NULL, 0, 6, 4, NULL, 0, &outcome) == BACTOOL_REFUSED && outcome.why == BACTOOL_SHORT);
}

/* Whether a piece is so. */
static bool is_piece(struct bactool_piece piece, size_t place, size_t length, size_t head, uint32_t kind, uint32_t tag,
                     uint32_t number)
{
    return piece.place == place && piece.length == length && piece.head == head && piece.kind == kind
           && piece.tag == tag && piece.number == number;
}

/* Example 17 with priority 17, which is refused at octet 21, by its pieces. */
static void try_pieces(void)
{
    static uint8_t octets[64];
    static const char arrow[] = "<- Content";
    struct bactool_piece pieces[COUNT(octets) + 1];
    struct bactool_outcome outcome;
    char words[256];
    size_t length = octets_of("0104 0005030F 0C00400001 1955 3E 4442C80000 3F 4911", octets);
    EXPECT(bactool_explain(octets, length, pieces, length + 1, &outcome) == BACTOOL_REFUSED);
    EXPECT(outcome.why == BACTOOL_CONTENT && outcome.place == 21 && outcome.count == 0 && outcome.fields == 13);
    EXPECT(is_piece(pieces[0], 0, 1, 0, BACTOOL_PIECE_VERSION, 0, 0));
    EXPECT(is_piece(pieces[4], 4, 1, 0, BACTOOL_PIECE_INVOKE_ID, 0, 0));
    EXPECT(is_piece(pieces[7], 11, 2, 1, BACTOOL_PIECE_ELEMENT, BACTOOL_TAG_CONTEXT, 1));
    EXPECT(is_piece(pieces[8], 13, 1, 1, BACTOOL_PIECE_ELEMENT, BACTOOL_TAG_OPENING, 3) && pieces[8].depth == 0);
    EXPECT(is_piece(pieces[9], 14, 5, 1, BACTOOL_PIECE_ELEMENT, BACTOOL_TAG_APPLICATION, 4) && pieces[9].depth == 1);
    EXPECT(is_piece(pieces[10], 19, 1, 1, BACTOOL_PIECE_ELEMENT, BACTOOL_TAG_CLOSING, 3) && pieces[10].depth == 0);
    EXPECT(is_piece(pieces[12], 21, 1, 0, BACTOOL_PIECE_REFUSED, 0, BACTOOL_CONTENT));
    EXPECT(bactool_piece_text(&pieces[12], octets, length, NULL, 0, &outcome) == BACTOOL_NO_ROOM);
    EXPECT(outcome.count >= sizeof arrow - 1);
    EXPECT(bactool_piece_text(&pieces[12], octets, length, words, sizeof words, &outcome) == BACTOOL_OK);
    EXPECT(outcome.count >= sizeof arrow - 1 && memcmp(words, arrow, sizeof arrow - 1) == 0);
    EXPECT(bactool_explain(NULL, 0, NULL, 0, &outcome) == BACTOOL_REFUSED && outcome.fields == 1);
}

/* The lines of a Who-Is that has a low limit, and no high one. */
static void try_lines(void)
{
    static const uint8_t octets[] = {0x01, 0x00, 0x10, 0x08, 0x09, 0x05};
    static const char wanted[] = "   0  01           version 1\n"
                                 "   1  00           control: no reply expected, priority 0\n"
                                 "   2  10           Unconfirmed-Request\n"
                                 "   3  08           service choice 8 Who-Is\n"
                                 "   4  09 05        [0] low 5\n"
                                 "   6               <- Short: the octets end, and more must come; possible here: [1] high\n";
    const size_t count = sizeof wanted - 1;
    struct bactool_outcome outcome;
    char lines[4096];
    EXPECT(bactool_explain_text(octets, COUNT(octets), NULL, 0, &outcome) == BACTOOL_REFUSED && outcome.count == count);
    EXPECT(bactool_explain_text(octets, COUNT(octets), lines, sizeof lines, &outcome) == BACTOOL_REFUSED);
    EXPECT(outcome.why == BACTOOL_SHORT && outcome.place == 6 && outcome.count == count && outcome.fields == 0);
    EXPECT(memcmp(lines, wanted, count) == 0);
    EXPECT(bactool_explain_text(octets, 4, lines, sizeof lines, &outcome) == BACTOOL_OK && outcome.place == 0);
    EXPECT(outcome.count > 0 && memcmp(lines, wanted, outcome.count) == 0);
    EXPECT(bactool_explain_text(NULL, 0, NULL, 0, &outcome) == BACTOOL_REFUSED && outcome.count > 0);
}

/* The lists of the header's comment are those of examples 1, 4 and 18. */
static void try_lists(void)
{
    EXPECT(make(request, COUNT(request), NULL, 0, "01040005010C 0C00000005 1955"));
    EXPECT(make(answer, COUNT(answer), NULL, 0, "010030010C 0C00000005 1955 3E 444290999A 3F"));
    EXPECT(make(results, COUNT(results), NULL, 0,
                "010030F10E 0C00000021 1E 2955 4E 444290999A 4F 2967 5E 9102 9120 5F 1F"));
}

/* Only memory limits the length of a frame, of its fields and of its text. */
static void try_long(void)
{
    static uint8_t octets[LONG], out[LONG];
    static char text[2 * LONG + 64];
    static struct bactool_field fields[8];
    static const uint8_t opaque[] = {0x01, 0x00, 0x10, 0x09};
    struct bactool_outcome outcome;
    memset(octets, 0xAA, sizeof octets);
    memcpy(octets, opaque, sizeof opaque);
    EXPECT(bactool_check(octets, LONG, true, &outcome) == BACTOOL_OK);
    EXPECT(bactool_decode(octets, LONG, out, LONG, fields, COUNT(fields), &outcome) == BACTOOL_OK);
    EXPECT(outcome.count == LONG && outcome.fields == 6);
    EXPECT(bactool_encode(fields, 6, octets, LONG, out, LONG, &outcome) == BACTOOL_OK && outcome.count == LONG);
    EXPECT(memcmp(out, octets, LONG) == 0);
    EXPECT(bactool_show(octets, LONG, text, sizeof text, &outcome) == BACTOOL_OK && outcome.count > 2 * LONG - 8);
    EXPECT(bactool_read(text, outcome.count, out, LONG, &outcome) == BACTOOL_OK && outcome.count == LONG);
    EXPECT(memcmp(out, octets, LONG) == 0);
}

/* The contents of an element have a limit. */
static void try_long_element(void)
{
    static uint8_t octets[LONGEST_CONTENTS + 64];
    struct bactool_outcome outcome;
    size_t head = octets_of("010030010C 0C00000005 1955 3E 65FF00100000", octets);
    octets[head + LONGEST_CONTENTS] = 0x3F;
    EXPECT(bactool_check(octets, head + LONGEST_CONTENTS + 1, true, &outcome) == BACTOOL_OK);
    octets[head - 1] = 1;
    EXPECT(bactool_check(octets, sizeof octets, true, &outcome) == BACTOOL_REFUSED);
    EXPECT(outcome.why == BACTOOL_LENGTH && outcome.place == head - 1);
}

/* One group too many is refused by a reason of its own only in octets. Example 68 has the octets. */
static void try_depth(void)
{
    static const uint8_t head[] = {0x01, 0x00, 0x30, 0x01, 0x0C, 0x0C, 0x00, 0x00, 0x00, 0x05, 0x19, 0x55, 0x3E};
    static struct bactool_field fields[128];
    struct bactool_builder builder = bactool_builder_over(fields, COUNT(fields), NULL, 0);
    struct bactool_outcome outcome;
    char text[512];
    frame.length = 0;
    append(head, sizeof head);
    memset(frame.octets + frame.length, 0x0E, 33);
    EXPECT(bactool_check(frame.octets, frame.length + 33, false, &outcome) == BACTOOL_REFUSED);
    EXPECT(outcome.why == BACTOOL_DEPTH && outcome.place == 45);

    bactool_say_head(&builder, false);
    bactool_say_answer(&builder, 1, BACTOOL_FIELD_READ_PROPERTY);
    bactool_say(&builder, BACTOOL_FIELD_OBJECT, BACTOOL_OBJECT(0, 5));
    bactool_say(&builder, BACTOOL_FIELD_PROPERTY, 85);
    bactool_say(&builder, BACTOOL_FIELD_VALUE, 0);
    size_t first = builder.count;
    for (int k = 0; k < 33; k++)
        bactool_say(&builder, BACTOOL_FIELD_GROUP, 0);
    EXPECT(bactool_builder_encode(&builder, NULL, 0, &outcome) == BACTOOL_REFUSED);
    EXPECT(outcome.why == BACTOOL_BAD_NAME && outcome.place == first + 32);

    strcpy(text, "prio=0 reply=0 ack id=1 ReadProperty object=0:5 property=85 value={");
    for (int k = 0; k < 33; k++)
        strcat(text, "[0]{");
    size_t length = strlen(text);
    EXPECT(bactool_read(text, length, NULL, 0, &outcome) == BACTOOL_REFUSED);
    EXPECT(outcome.why == BACTOOL_BAD_TEXT && outcome.place == length - 1);
}

/* ---- Each frame of a file */

/* The fields of a builder, copied from a frame, are those of the frame. With less capacity the builder is full. */
static void try_copy(size_t most, size_t room)
{
    static struct bactool_field fields[BACTOOL_MOST_FIELDS(1497)];
    static uint8_t contents[1497], out[1497];
    struct bactool_builder builder = bactool_builder_over(fields, most, contents, room);
    struct bactool_outcome outcome;
    size_t length = 0;
    for (size_t k = 0; k < frame.count; k++) {
        bactool_say_field(&builder, &frame.fields[k], frame.canonical);
        length += bactool_has_contents(frame.fields[k].name) ? frame.fields[k].length : 0;
    }
    uint32_t code = bactool_builder_encode(&builder, out, sizeof out, &outcome);
    if (most < frame.count || room < length) {
        EXPECT(bactool_builder_full(&builder) && builder.count == 0);
        EXPECT(code == BACTOOL_REFUSED && outcome.why == BACTOOL_SHORT && outcome.place == 0);
        return;
    }
    EXPECT(!bactool_builder_full(&builder) && builder.count == frame.count && builder.length == length);
    EXPECT(code == BACTOOL_OK && outcome.count == frame.canonical_length);
    EXPECT(memcmp(out, frame.canonical, frame.canonical_length) == 0);
}

/* A field has contents by its name exactly if it is refused where they are not in the octets. The number of a service
   is its choice, which is the octet of the field. */
static void try_field(struct bactool_field *field)
{
    static uint8_t out[1497];
    struct bactool_field whole = *field;
    struct bactool_outcome outcome;
    field->place = frame.canonical_length + 1;
    field->length = 4;
    uint32_t code = bactool_encode(frame.fields, frame.count, frame.canonical, frame.canonical_length, out, sizeof out,
                                   &outcome);
    *field = whole;
    if (bactool_has_contents(field->name))
        EXPECT(code == BACTOOL_REFUSED && outcome.why == BACTOOL_BAD_CONTENTS);
    else
        EXPECT(code == BACTOOL_OK);
    if (BACTOOL_FIELD_READ_PROPERTY <= field->name && field->name < BACTOOL_FIELD_OPAQUE) {
        enum bactool_field_name name = BACTOOL_CAST(enum bactool_field_name, field->name);
        EXPECT(field->number == bactool_choice_of(name) && field->number == frame.canonical[field->place]);
    }
}

/* Passes over all parts, and over those inside of them. Returns how many fields there are. */
static size_t walk(struct bactool_cursor cursor)
{
    struct bactool_cursor inside = {NULL, 0};
    const struct bactool_field *first;
    size_t count = 0;
    while ((first = bactool_next_part(&cursor, &inside)) != NULL) {
        EXPECT(inside.fields == first + 1 && !bactool_is_closing(first->name));
        count += 1 + walk(inside) + (bactool_is_opening(first->name) ? 1 : 0);
        if (bactool_is_opening(first->name))
            EXPECT(bactool_is_closing(inside.fields[inside.count].name));
        else
            EXPECT(inside.count == 0);
    }
    return count;
}

/* Each property of a frame is passed once, with the object before it. */
static void try_properties(void)
{
    struct bactool_property found = bactool_properties(frame.fields, frame.count);
    const struct bactool_field *object = NULL;
    for (size_t k = 0; k < frame.count; k++) {
        if (frame.fields[k].name == BACTOOL_FIELD_OBJECT)
            object = &frame.fields[k];
        if (frame.fields[k].name == BACTOOL_FIELD_PROPERTY)
            EXPECT(bactool_next_property(&found) && found.property == &frame.fields[k] && found.object == object);
    }
    EXPECT(!bactool_next_property(&found) && found.property == NULL && found.rest.count == 0);
    EXPECT(!bactool_next_property(&found));
}

static void try_frame(void)
{
    decode();
    for (size_t most = 0; most <= frame.count; most++)
        try_copy(most, 1497);
    for (size_t room = 0; room <= 32; room++)
        try_copy(frame.count, room);
    for (size_t k = 0; k < frame.count; k++)
        try_field(&frame.fields[k]);
    EXPECT(walk(bactool_cursor_over(frame.fields, frame.count)) == frame.count);
    try_properties();
}

/* Fields that are of no frame, such as an end that is missing, end the walk at the last of them. */
static void try_broken(void)
{
    static const struct bactool_field broken[] = {SAY(RESULTS, 0), SAY(ITEM, 0), SAY(VALUE, 0), SAY(REAL, 0)};
    struct bactool_cursor cursor = bactool_cursor_over(broken, COUNT(broken)), inside = {NULL, 0};
    EXPECT(bactool_next_part(&cursor, &inside) == broken && inside.count == 3 && cursor.count == 0);
    EXPECT(bactool_next_part(&cursor, &inside) == NULL && inside.count == 0);
    cursor = bactool_cursor_over(broken, 1);
    EXPECT(bactool_next_part(&cursor, &inside) == broken && inside.count == 0);
    EXPECT(!bactool_find_list(&cursor, BACTOOL_FIELD_VALUES, &inside) && cursor.count == 0);
}

/* ---- As many fields as there can be */

/* A front, the same octets as often as they fit, and an end. */
static void decode_repeated(const char *front, const char *again, const char *end)
{
    uint8_t octets[64], last[8];
    size_t length = octets_of(again, octets), last_length = octets_of(end, last);
    frame.length = octets_of(front, frame.octets);
    while (frame.length + length + last_length <= 65535)
        append(octets, length);
    append(last, last_length);
    decode();
}

static void try_most_fields(void)
{
    /* properties that are asked for: three fields for two octets */
    decode_repeated("01040002F10E 0C00000021 1E", "0955", "1F");
    EXPECT(frame.count > frame.length + frame.length / 2 - 16);
    /* results with empty values, errors, values with Nulls, with empty groups, and the ports of a routing table */
    decode_repeated("010030010E 0C00000005 1E", "29554E4F", "1F");
    decode_repeated("010030010E 0C00000005 1E", "29555E910091005F", "1F");
    decode_repeated("010030010C 0C00000005 1955 3E", "00", "3F");
    decode_repeated("010030010C 0C00000005 1955 3E", "0E0F", "3F");
    decode_repeated("0104000202100C00400001 1E", "09552E2F3908", "1F");
    decode_repeated("010030010E", "0C000000051E1F", "");
    decode_repeated("018001", "0005", "");
    /* short frames, in which the heads count most */
    static const char *const heads[] = {
        "01001008", "01001009", "01040005010E", "01040005010F0C00400001 1955 3E3F", "0104080501007F0C", "01003C01007F0C",
        "010030010E", "01004F010204", "01006001 09", "0100710304", "01002001 0F", "0100500106", "018000", "018001",
        "01800600", "018007", "01800700", "018012", "0180800104", "0128000501 0A 0007020102 FF 1008"};
    for (size_t k = 0; k < COUNT(heads); k++)
        decode_digits(heads[k]);
}

/* An answer with 23 Reals has 260 fields: more than programs like to set aside. */
static void try_23_reals(void)
{
    frame.length = octets_of("010030010E", frame.octets);
    for (unsigned k = 0; k < 23; k++) {
        const uint8_t result[] = {0x0C, 0, 0, 0, BACTOOL_CAST(uint8_t, k), 0x1E, 0x29, 0x55,
                                  0x4E, 0x44, 0x42, 0xC8, 0, 0, 0x4F, 0x1F};
        append(result, sizeof result);
    }
    decode();
    EXPECT(frame.count == 260);
    struct bactool_property result = bactool_properties(frame.fields, frame.count);
    for (unsigned k = 0; k < 23; k++) {
        float value = 0;
        EXPECT(bactool_next_property(&result) && result.object->number == k);
        EXPECT(bactool_as_float(result.value.fields, &value) && value == 100);
    }
    EXPECT(!bactool_next_property(&result));
}

/* ---- Worked examples, made by the builder */

static struct bactool_field said[64];
static uint8_t said_octets[300];

static struct bactool_builder empty(void)
{
    return bactool_builder_over(said, COUNT(said), said_octets, sizeof said_octets);
}

static bool makes(const struct bactool_builder *builder, const char *digits)
{
    return !bactool_builder_full(builder)
        && make(builder->fields, builder->count, builder->octets, builder->length, digits);
}

/* Examples 1, 4, 6, 5 and 17. */
static void try_requests(void)
{
    struct bactool_builder builder = empty();
    bactool_say_head(&builder, true);
    bactool_say_request(&builder, 1, BACTOOL_FIELD_READ_PROPERTY);
    bactool_say_object(&builder, BACTOOL_FIELD_OBJECT, BACTOOL_TYPE_ANALOG_INPUT, 5);
    bactool_say(&builder, BACTOOL_FIELD_PROPERTY, BACTOOL_PROPERTY_PRESENT_VALUE);
    EXPECT(makes(&builder, "01040005010C 0C00000005 1955"));

    builder = empty();
    bactool_say_head(&builder, false);
    bactool_say_unconfirmed(&builder, BACTOOL_FIELD_I_AM);
    bactool_say_object(&builder, BACTOOL_FIELD_OBJECT, BACTOOL_TYPE_DEVICE, 1);
    bactool_say(&builder, BACTOOL_FIELD_MAX_APDU, 480);
    bactool_say(&builder, BACTOOL_FIELD_SEGMENTATION, BACTOOL_SEGMENTATION_NO_SEGMENTATION);
    bactool_say(&builder, BACTOOL_FIELD_VENDOR, 99);
    EXPECT(makes(&builder, "01001000 C402000001 2201E0 9103 2163"));

    builder = empty();
    bactool_say_head(&builder, false);
    bactool_say_destination(&builder, 65535, NULL, 0);
    bactool_say_unconfirmed(&builder, BACTOOL_FIELD_WHO_IS);
    EXPECT(makes(&builder, "0120FFFF00FF1008"));

    builder = empty();
    bactool_say_head(&builder, true);
    bactool_say_request(&builder, 3, BACTOOL_FIELD_WRITE_PROPERTY);
    bactool_say_object(&builder, BACTOOL_FIELD_OBJECT, BACTOOL_TYPE_ANALOG_OUTPUT, 1);
    bactool_say(&builder, BACTOOL_FIELD_PROPERTY, BACTOOL_PROPERTY_PRESENT_VALUE);
    bactool_say(&builder, BACTOOL_FIELD_VALUE, 0);
    bactool_say_real(&builder, 100);
    bactool_say(&builder, BACTOOL_FIELD_VALUE_END, 0);
    bactool_say(&builder, BACTOOL_FIELD_PRIORITY, 8);
    EXPECT(makes(&builder, "01040005030F 0C00400001 1955 3E 4442C80000 3F 4908"));
}

/* Examples 19, 54, 21 and 53, and opaque services of example 50. */
static void try_heads(void)
{
    static const uint8_t station[] = {0x0A};
    struct bactool_builder builder = empty();
    bactool_say_head(&builder, true);
    bactool_say_request(&builder, 15, BACTOOL_FIELD_SUBSCRIBE_COV);
    bactool_say(&builder, BACTOOL_FIELD_PROCESS, 18);
    bactool_say_object(&builder, BACTOOL_FIELD_OBJECT, BACTOOL_TYPE_ANALOG_INPUT, 10);
    bactool_say(&builder, BACTOOL_FIELD_CONFIRMED, 1);
    bactool_say(&builder, BACTOOL_FIELD_LIFETIME, 0);
    EXPECT(makes(&builder, "010400050F05 0912 1C0000000A 2901 3900"));

    builder = empty();
    bactool_say_head(&builder, false);
    bactool_say_destination(&builder, 5, station, sizeof station);
    bactool_say_octets(&builder, BACTOOL_FIELD_SOURCE, 7, "\1\2", 2);
    bactool_say_unconfirmed(&builder, BACTOOL_FIELD_WHO_IS);
    EXPECT(makes(&builder, "0128 0005010A 0007020102 FF 1008"));

    builder = empty();
    bactool_say_head(&builder, false);
    bactool_say_error(&builder, 1, BACTOOL_CHOICE_READ_PROPERTY, BACTOOL_ERROR_CLASS_PROPERTY,
                      BACTOOL_ERROR_CODE_UNKNOWN_PROPERTY);
    EXPECT(makes(&builder, "010050010C 9102 9120"));

    builder = empty();
    bactool_say_head(&builder, false);
    bactool_say_unconfirmed(&builder, BACTOOL_FIELD_OPAQUE);
    bactool_say(&builder, BACTOOL_FIELD_CHOICE, BACTOOL_CHOICE_UTC_TIME_SYNCHRONIZATION);
    bactool_say_octets(&builder, BACTOOL_FIELD_OCTETS, 0, NULL, 0);
    EXPECT(makes(&builder, "01001009"));
}

/* A SimpleACK, a Reject and an Abort as records 5, 31 and 32 of every-kind.frames have them; an Abort by the client. */
static void try_endings(void)
{
    struct bactool_builder builder = empty();
    bactool_say_head(&builder, false);
    bactool_say_simple_ack(&builder, 3, BACTOOL_CHOICE_WRITE_PROPERTY);
    EXPECT(makes(&builder, "010020030F"));
    builder = empty();
    bactool_say_head(&builder, false);
    bactool_say_reject(&builder, 1, BACTOOL_REJECT_UNRECOGNIZED_SERVICE);
    EXPECT(makes(&builder, "0100600109"));
    builder = empty();
    bactool_say_head(&builder, false);
    bactool_say_abort(&builder, 3, true, BACTOOL_ABORT_SEGMENTATION_NOT_SUPPORTED);
    EXPECT(makes(&builder, "0100710304"));
    builder = empty();
    bactool_say_head(&builder, false);
    bactool_say_abort(&builder, 3, false, BACTOOL_ABORT_OTHER);
    EXPECT(makes(&builder, "0100700300"));
}

/* Elements of example 16, and -5 and 1.5 as section 2 of FORMATS has them. */
static void try_elements(void)
{
    struct bactool_builder builder = empty();
    bactool_say_head(&builder, false);
    bactool_say_answer(&builder, 1, BACTOOL_FIELD_READ_PROPERTY);
    bactool_say_object(&builder, BACTOOL_FIELD_OBJECT, BACTOOL_TYPE_ANALOG_INPUT, 5);
    bactool_say(&builder, BACTOOL_FIELD_PROPERTY, BACTOOL_PROPERTY_PRESENT_VALUE);
    bactool_say(&builder, BACTOOL_FIELD_VALUE, 0);
    bactool_say_text(&builder, "Hello", 5);
    bactool_say_octets(&builder, BACTOOL_FIELD_CHARACTER_STRING, 5, "\xE9", 1);
    bactool_say_double(&builder, 1.0);
    bactool_say_signed(&builder, -5);
    bactool_say(&builder, BACTOOL_FIELD_UNSIGNED, 5);
    bactool_say_object(&builder, BACTOOL_FIELD_OBJECT_IDENTIFIER, BACTOOL_TYPE_DEVICE, 4);
    bactool_say(&builder, BACTOOL_FIELD_VALUE_END, 0);
    EXPECT(makes(&builder, "010030010C 0C00000005 1955 3E 75060048656C6C6F 7205E9 55083FF0000000000000 31FB 2105 "
                           "C402000004 3F"));
}

/* What an object identifier cannot have is refused, and is no other object. */
static void try_object_out_of_range(uint32_t type, uint32_t instance)
{
    struct bactool_builder builder = empty();
    struct bactool_outcome outcome;
    bactool_say_head(&builder, true);
    bactool_say_request(&builder, 1, BACTOOL_FIELD_READ_PROPERTY);
    bactool_say_object(&builder, BACTOOL_FIELD_OBJECT, type, instance);
    EXPECT(bactool_builder_encode(&builder, NULL, 0, &outcome) == BACTOOL_REFUSED);
    EXPECT(outcome.why == BACTOOL_BAD_NUMBER && outcome.place == 8);
}

/* ---- Worked examples, read by the cursor */

/* Example 18: an object with a value and an error. */
static void try_results(void)
{
    decode_digits("010030F10E 0C00000021 1E 2955 4E 444290999A 4F 2967 5E 9102 9120 5F 1F");
    struct bactool_cursor whole = bactool_cursor_over(frame.fields, frame.count), list, item, results_of_item, result;
    EXPECT(bactool_find_list(&whole, BACTOOL_FIELD_RESULTS, &list) && whole.count == frame.count);
    EXPECT(bactool_next_item(&list, &item));
    EXPECT(bactool_find(item.fields, item.count, BACTOOL_FIELD_OBJECT)->number == 33);
    EXPECT(bactool_find_list(&item, BACTOOL_FIELD_RESULTS, &results_of_item));
    EXPECT(bactool_next_item(&results_of_item, &result) && result.fields->number == 85);
    EXPECT(bactool_next_item(&results_of_item, &result) && result.fields->number == 103);
    EXPECT(bactool_find(result.fields, result.count, BACTOOL_FIELD_ERROR_CODE)->number == 32);
    EXPECT(!bactool_next_item(&results_of_item, &result) && !bactool_next_item(&list, &item));

    struct bactool_property found = bactool_properties(frame.fields, frame.count);
    float value = 0;
    EXPECT(bactool_next_property(&found) && found.object->number == 33 && found.property->number == 85);
    EXPECT(found.has_value && found.value.count == 1 && found.error_class == NULL && found.error_code == NULL);
    EXPECT(bactool_as_float(found.value.fields, &value) && value > 72.29f && value < 72.31f);
    EXPECT(bactool_next_property(&found) && found.object->number == 33 && found.property->number == 103);
    EXPECT(found.error_class->number == 2 && found.error_code->number == 32);
    EXPECT(!found.has_value && found.value.count == 0);
    EXPECT(!bactool_as_float(found.value.fields, &value));
}

/* Example 45: an object with no list has no properties, and the one after it has its own. Example 20: a notification.
   An index and a priority as record 13 of every-kind.frames has them. */
static void try_notification(void)
{
    decode_digits("010030010E 0C00000005 0C00000006 1E 2955 4E 4F 1F");
    struct bactool_property found = bactool_properties(frame.fields, frame.count);
    EXPECT(bactool_next_property(&found) && found.object->number == 6 && found.has_value && found.value.count == 0);
    EXPECT(!bactool_next_property(&found));

    decode_digits("01001002 0912 1C02000004 2C0000000A 3900 4E 0955 2E 4442820000 2F 096F 2E 820400 2F 4F");
    found = bactool_properties(frame.fields, frame.count);
    float value = 0;
    bool bit = true;
    EXPECT(bactool_next_property(&found) && found.object->number == 10 && found.property->number == 85);
    EXPECT(bactool_as_float(found.value.fields, &value) && value == 65);
    EXPECT(bactool_next_property(&found) && found.property->number == BACTOOL_PROPERTY_STATUS_FLAGS);
    EXPECT(bactool_as_bit(found.value.fields, frame.canonical, 3, &bit) && !bit);
    EXPECT(!bactool_as_bit(found.value.fields, frame.canonical, 4, &bit));
    EXPECT(!bactool_next_property(&found));

    decode_digits("01040005 0301 0912 1C02000004 2C0000000A 393C 4E 0955 2E 4442820000 2F 0957 1902 2E 9101 2F 3908 4F");
    found = bactool_properties(frame.fields, frame.count);
    EXPECT(bactool_next_property(&found) && found.index == NULL && found.priority == NULL);
    EXPECT(bactool_next_property(&found) && found.index->number == 2 && found.priority->number == 8);
}

/* Example 76: the property that was not written, and why. */
static void try_write_error(void)
{
    decode_digits("0100500210 0E 9102 9120 0F 1E 0C00400001 1955 1F");
    struct bactool_property found = bactool_properties(frame.fields, frame.count);
    EXPECT(bactool_next_property(&found) && found.object->number == BACTOOL_OBJECT(1, 1));
    EXPECT(found.property->number == 85);
    EXPECT(found.error_class->number == 2 && found.error_code->number == 32 && !found.has_value);
}

/* Example 22: the networks of a list are no items. Example 56: a port is one. */
static void try_network_lists(void)
{
    struct bactool_cursor whole, list, item;
    decode_digits("018001 0002 0003");
    whole = bactool_cursor_over(frame.fields, frame.count);
    EXPECT(bactool_find_list(&whole, BACTOOL_FIELD_NETWORKS, &list) && list.count == 2);
    EXPECT(bactool_next(&list)->number == 2 && !bactool_next_item(&list, &item) && bactool_next(&list) == NULL);

    decode_digits("018006 01 0002 01 00");
    whole = bactool_cursor_over(frame.fields, frame.count);
    EXPECT(bactool_find_list(&whole, BACTOOL_FIELD_PORTS, &list) && bactool_next_item(&list, &item));
    EXPECT(item.count == 3 && bactool_find(item.fields, item.count, BACTOOL_FIELD_PORT_ID)->number == 1);
    EXPECT(!bactool_next_item(&list, &item));
}

/* Elements of a value, as record 6 of every-kind.frames has them. */
static void try_conversions(void)
{
    decode_digits("010030010C 0C00000005 1955 3E 2105 31FB 4441480000 55083FF0000000000000 75060048656C6C6F 7205E9 "
                  "8306A540 9103 25088000000000000000 25087FFFFFFFFFFFFFFF 35088000000000000000 2E2101 2F 3F");
    struct bactool_property found = bactool_properties(frame.fields, frame.count);
    EXPECT(bactool_next_property(&found) && found.value.count == 14);
    const struct bactool_field *element = found.value.fields;
    const uint8_t *octets = frame.canonical;
    int64_t integer = 0;
    float real = 0;
    double wide = 0;
    const char *text = NULL;
    size_t length = 0;
    bool bit = false;
    EXPECT(bactool_as_integer(&element[0], &integer) && integer == 5 && !bactool_as_double(&element[0], &wide));
    EXPECT(bactool_as_integer(&element[1], &integer) && integer == -5);
    EXPECT(bactool_as_float(&element[2], &real) && real == 12.5f);
    EXPECT(bactool_as_double(&element[2], &wide) && wide == 12.5);
    EXPECT(bactool_as_double(&element[3], &wide) && wide == 1 && !bactool_as_float(&element[3], &real));
    EXPECT(bactool_as_text(&element[4], octets, &text, &length) && length == 5 && memcmp(text, "Hello", 5) == 0);
    EXPECT(!bactool_as_text(&element[5], octets, &text, &length) && length == 5);
    static const bool bits[] = {true, false, true, false, false, true, false, true, false, true};
    for (size_t k = 0; k < COUNT(bits); k++)
        EXPECT(bactool_as_bit(&element[6], octets, k, &bit) && bit == bits[k]);
    EXPECT(!bactool_as_bit(&element[6], octets, COUNT(bits), &bit) && !bactool_as_bit(&element[0], octets, 0, &bit));
    EXPECT(bactool_as_integer(&element[7], &integer) && integer == 3);
    EXPECT(!bactool_as_integer(&element[8], &integer) && integer == 3);
    EXPECT(bactool_as_integer(&element[9], &integer) && integer == INT64_MAX);
    EXPECT(bactool_as_integer(&element[10], &integer) && integer == INT64_MIN);
    EXPECT(!bactool_as_integer(&element[11], &integer) && !bactool_as_integer(NULL, &integer));
    EXPECT(!bactool_as_float(NULL, &real) && !bactool_as_double(NULL, &wide));
    EXPECT(!bactool_as_bit(NULL, octets, 0, &bit));
    EXPECT(!bactool_as_text(NULL, octets, &text, &length));
}

/* Tries each record of a file. Returns how many there are. */
static unsigned try_frames(const char *path)
{
    uint8_t head[2];
    unsigned count = 0;
    FILE *file = fopen(path, "rb");
    if (file == NULL)
        return 0;
    while (fread(head, 1, 2, file) == 2) {
        frame.length = BACTOOL_CAST(size_t, head[0] << 8 | head[1]);
        if (fread(frame.octets, 1, frame.length, file) != frame.length)
            break;
        try_frame();
        count++;
    }
    fclose(file);
    return count;
}

int main(int count, char **words)
{
    EXPECT(count == 3 && try_frames(words[1]) == strtoul(words[2], NULL, 10));
    try_numbers();
    try_calls();
    try_segments();
    try_pieces();
    try_lines();
    try_lists();
    try_long();
    try_long_element();
    try_depth();
    try_broken();
    try_most_fields();
    try_23_reals();
    try_requests();
    try_heads();
    try_endings();
    try_elements();
    try_object_out_of_range(1024, 0);
    try_object_out_of_range(0, 4194304);
    try_results();
    try_notification();
    try_write_error();
    try_network_lists();
    try_conversions();
    if (faults > 0)
        printf("try-header: %u faults of the program\n", faults);
    return faults > 0;
}
