/* SPDX-License-Identifier: Apache-2.0 OR MIT */
/*
 * Use of libbactool where memory is refused, and where it is not, for scripts/try-memory: `try-memory SEED DRAWS`.
 *
 * First, on worked examples of docs/EXAMPLES.md, each allocation of each call is refused in turn: a call ends as the
 * example says, or reports that memory was refused and writes nothing. bactool_check and bactool_head take none. Then each
 * call is made with DRAWS frames of drawn lengths and counts, and with lines, fields and messages in segments of drawn
 * lengths: no call reports that memory was refused, since none was. At last some whole messages are joined: the most memory
 * that the call held is printed beside the length of the message, and is hardly more. It prints a line for each thing that
 * is wrong, and one at the end.
 *
 * It is linked with --wrap for malloc, realloc and free.
 */
#include "drawn-frames.h"
#include "line-of-fields.h"
#include "refused-memory.h"
#include "segments.h"
#include <bactool.h>
#include <stdio.h>
#include <stdlib.h>
#include <string.h>

static unsigned long faults, tried;

/* What is tried, for a line of a fault. */
static const char *trying = "";

#define EXPECT(holds)                                                                                          \
    do {                                                                                                       \
        if (!(holds) && faults++ < 20)                                                                         \
            printf("try-memory: line %d, %s %lu: %s\n", __LINE__, trying, tried, #holds);                      \
    } while (0)

/* An outcome before a call, which fills in the whole of it. */
#define UNTOLD {77, 77, 77, 77}

static bool tells(struct bactool_outcome told, uint32_t why, size_t place, size_t count, size_t fields)
{
    return told.why == why && told.place == place && told.count == count && told.fields == fields;
}

/* The calls of which all but bactool_check may report that memory was refused. */
enum call { CHECK, NORMALISE, DECODE, ENCODE, SHOW, READ, EXPLAIN_TEXT, CUT, JOIN, SAME, CALLS };

/* ---- refused allocations */

/* A worked example: octets, their canonical octets if they have others, and their line, or why they are refused at 0. */
static const struct example {
    unsigned long number;
    const char *octets, *canonical, *line;
    uint32_t why;
} examples[] = {
    {18, "01040002F10E0C000000211E09551F", NULL,
     "prio=0 reply=1 conf id=241 sa=0 segs=0 resp=2 ReadPropertyMultiple specs=((object=0:33 properties=((property=85))))", 0},
    {18, "010030F10E0C000000211E29554E444290999A4F29675E910291205F1F", NULL,
     "prio=0 reply=0 ack id=241 ReadPropertyMultiple results=((object=0:33 results=((property=85 value={r:4290999A}) "
     "(property=103 error=(class=2 code=32)))))", 0},
    {20, "0100100209121C020000042C0000000A39004E09552E44428200002F096F2E8204002F4F", NULL,
     "prio=0 reply=0 unconf UnconfirmedCOVNotification process=18 device=8:4 object=0:10 remaining=0 values=((property=85 "
     "value={r:42820000}) (property=111 value={b:0000}))", 0},
    {24, "01003C0100040C0C0000000519", NULL,
     "prio=0 reply=0 ack-seg id=1 seq=0 win=4 more=1 choice=12 octets=0C0000000519", 0},
    {24, "01003C0101040C553E44429099", NULL,
     "prio=0 reply=0 ack-seg id=1 seq=1 win=4 more=1 choice=12 octets=553E44429099", 0},
    {24, "0100380102040C9A3F", NULL, "prio=0 reply=0 ack-seg id=1 seq=2 win=4 more=0 choice=12 octets=9A3F", 0},
    {27, "010030010C0C0000000519553E444290999A3F", NULL,
     "prio=0 reply=0 ack id=1 ReadProperty object=0:5 property=85 value={r:4290999A}", 0},
    {28, "01540185010C0C000000051A0055", "01040005010C0C000000051955",
     "prio=0 reply=1 conf id=1 sa=0 segs=0 resp=5 ReadProperty object=0:5 property=85", 0},
    {28, "01040005010C0C000000051955", NULL,
     "prio=0 reply=1 conf id=1 sa=0 segs=0 resp=5 ReadProperty object=0:5 property=85", 0},
    {28, "", NULL, NULL, BACTOOL_SHORT},
    {74, "0104000502100C004000011E09552E4442C800002F39081F", NULL,
     "prio=0 reply=1 conf id=2 sa=0 segs=0 resp=5 WritePropertyMultiple specs=((object=1:1 values=((property=85 "
     "value={r:42C80000} priority=8))))", 0},
};

enum { EXAMPLES = sizeof examples / sizeof *examples, LONGEST = 64, LINE = 256, LINES = 4096, FIELDS = 64, KEPT = 0xA5 };

/* The octets of an example, which is not written to; its canonical octets, its fields, and the lines that explain it. If it is
   cut, the records of its segments, and otherwise its own. */
struct said {
    const struct example *example;
    uint8_t octets[LONGEST], canonical[LONGEST], records[LINE];
    char lines[LINES];
    size_t length, count, fields, records_length, lines_length;
    bool is_cut;
    struct bactool_field known[FIELDS];
};

/* Where the calls write. */
static uint8_t out[LINES];
static struct bactool_field fields[FIELDS];

static size_t octets_of(const char *digits, uint8_t *octets)
{
    size_t count = 0;
    for (unsigned octet; sscanf(digits + 2 * count, "%2x", &octet) == 1; count++)
        octets[count] = (uint8_t)octet;
    return count;
}

static bool all_kept(const void *octets, size_t count)
{
    for (size_t k = 0; k < count; k++)
        if (((const uint8_t *)octets)[k] != KEPT)
            return false;
    return true;
}

/* These fields make this line. */
static bool has_line(const uint8_t *octets, const struct bactool_field *said, size_t count, const char *line)
{
    char made[LINE];
    size_t length = line_of_fields(octets, said, count, made);
    return length == strlen(line) && memcmp(made, line, length) == 0;
}

/* How the examples are cut. */
enum { PIECE = 6, WINDOW = 4 };

/* Puts the records of an example. In all examples the APDU begins at 2. */
static void put_records(struct said *said)
{
    const uint8_t *apdu = said->canonical + 2;
    bool is_request = said->count > 2 && apdu[0] == 0x00, is_answer = said->count > 2 && apdu[0] == 0x30;
    size_t head = is_request ? 6 : 5;
    said->is_cut = is_request || is_answer;
    if (said->is_cut) {
        const struct message message = {said->canonical, 2, is_request, apdu[1], apdu[is_request ? 2 : 1],
                                        said->canonical[head - 1], said->canonical + head, said->count - head};
        said->records_length = put_segments(&message, PIECE, WINDOW, said->records);
    } else {
        said->records[0] = 0;
        said->records[1] = (uint8_t)said->length;
        memcpy(said->records + 2, said->octets, said->length);
        said->records_length = 2 + said->length;
    }
}

/* The example as the calls want it. Its fields are those that the library decodes, if the line that they make is the
   example's. The lines that explain it are those that the library writes where no memory is refused. */
static struct said said_by(const struct example *example)
{
    struct said said = {.example = example};
    struct bactool_outcome told = UNTOLD;
    said.length = octets_of(example->octets, said.octets);
    said.count = octets_of(example->canonical != NULL ? example->canonical : example->octets, said.canonical);
    put_records(&said);
    EXPECT(bactool_explain_text(said.octets, said.length, said.lines, LINES, &told) != BACTOOL_NO_MEMORY);
    EXPECT(0 < told.count && told.count < LINES);
    said.lines_length = told.count;
    if (example->line == NULL)
        return said;
    EXPECT(bactool_decode(said.octets, said.length, out, sizeof out, said.known, FIELDS, &told) == BACTOOL_OK);
    said.fields = told.fields;
    EXPECT(has_line(said.canonical, said.known, said.fields, example->line));
    return said;
}

/* Makes a call on an example, or on two for SAME. */
static uint32_t made(enum call call, const struct said *said, const struct said *other, struct bactool_outcome *told)
{
    const char *line = said->example->line != NULL ? said->example->line : "";
    memset(out, KEPT, sizeof out);
    memset(fields, KEPT, sizeof fields);
    switch (call) {
    case CHECK:
        return bactool_check(said->octets, said->length, false, told);
    case NORMALISE:
        return bactool_normalise(said->octets, said->length, out, sizeof out, told);
    case DECODE:
        return bactool_decode(said->octets, said->length, out, sizeof out, fields, FIELDS, told);
    case ENCODE:
        return bactool_encode(said->known, said->fields, said->canonical, said->count, out, sizeof out, told);
    case SHOW:
        return bactool_show(said->octets, said->length, (char *)out, sizeof out, told);
    case READ:
        return bactool_read(line, strlen(line), out, sizeof out, told);
    case EXPLAIN_TEXT:
        return bactool_explain_text(said->octets, said->length, (char *)out, sizeof out, told);
    case CUT:
        return bactool_cut(said->octets, said->length, PIECE, WINDOW, out, sizeof out, told);
    case JOIN:
        return bactool_join(said->records, said->records_length, out, sizeof out, told);
    default:
        return bactool_same_meaning(said->octets, said->length, other->octets, other->length, told);
    }
}

/* These octets are written, and what follows them is kept. */
static bool is_written(const void *octets, size_t count)
{
    return memcmp(out, octets, count) == 0 && all_kept(out + count, sizeof out - count);
}

/* Both frames have the same canonical octets. */
static bool are_same(const struct said *said, const struct said *other)
{
    return said->count == other->count && memcmp(said->canonical, other->canonical, said->count) == 0;
}

/* A record that is a segment alone lacks the first other one; what is no segment is told. */
static bool is_one_record(const struct said *said, uint32_t code, struct bactool_outcome told)
{
    bool is_segment = (said->octets[2] & 0xF8) == 0x38, is_first = is_segment && said->octets[4] == 0;
    return code == (is_segment ? BACTOOL_INCOMPLETE : BACTOOL_NO_SEGMENT) && tells(told, 0, is_first, 0, 0);
}

/* The call answered as the example says. All examples that are tolerated differ at 1, and those that are refused are so
   at 0. */
static bool is_answered(enum call call, const struct said *said, const struct said *other, uint32_t code,
                        struct bactool_outcome told)
{
    const struct example *example = said->example;
    bool is_tolerated = example->canonical != NULL, is_right = example->why == 0;
    size_t length = example->line != NULL ? strlen(example->line) : 0;
    if (call == EXPLAIN_TEXT)
        return code == (!is_right ? BACTOOL_REFUSED : is_tolerated ? BACTOOL_TOLERATED : BACTOOL_OK)
            && tells(told, example->why, is_tolerated, said->lines_length, 0) && is_written(said->lines, said->lines_length);
    if (call == SAME && is_right && other->example->why == 0)
        return code == (are_same(said, other) ? BACTOOL_OK : BACTOOL_DIFFERENT) && tells(told, 0, 0, 0, 0);
    if (call == SAME)
        return code == (is_right ? BACTOOL_RIGHT_REFUSED : BACTOOL_LEFT_REFUSED)
            && tells(told, is_right ? other->example->why : example->why, 0, 0, 0);
    if (!is_right)
        return code == BACTOOL_REFUSED && tells(told, example->why, 0, 0, 0) && all_kept(out, sizeof out);
    if (call == CHECK)
        return code == (is_tolerated ? BACTOOL_TOLERATED : BACTOOL_OK) && tells(told, 0, is_tolerated, 0, 0);
    if (call == CUT && !said->is_cut)
        return code == BACTOOL_NO_SERVICE && tells(told, 0, 0, 0, 0) && all_kept(out, sizeof out);
    if (call == JOIN && !said->is_cut)
        return is_one_record(said, code, told) && all_kept(out, sizeof out);
    if (code != BACTOOL_OK)
        return false;
    if (call == CUT)
        return tells(told, 0, 0, said->records_length, 0) && is_written(said->records, said->records_length);
    if (call == SHOW)
        return tells(told, 0, 0, length, 0) && is_written(example->line, length);
    if (!is_written(said->canonical, said->count))
        return false;
    if (call != DECODE)
        return tells(told, 0, 0, said->count, 0);
    return tells(told, 0, 0, said->count, said->fields) && has_line(out, fields, said->fields, example->line)
        && all_kept(fields + said->fields, (FIELDS - said->fields) * sizeof *fields);
}

/* How many allocations of each call were refused. */
static unsigned long refusals[CALLS];

/* Each allocation refused in turn, till none is left. Until then the call reports it and writes nothing; where others are
   granted it may also do without it. */
static void try_refused(enum call call, const struct said *said, const struct said *other)
{
    was_refused = true;
    for (long refused = 0; was_refused; refused++) {
        struct bactool_outcome told = UNTOLD;
        was_refused = false;
        left = refused;
        uint32_t code = made(call, said, other, &told);
        left = -1;
        refusals[call] += was_refused;
        if (was_refused && (!alone || code == BACTOOL_NO_MEMORY)) {
            EXPECT(code == BACTOOL_NO_MEMORY && tells(told, BACTOOL_OUT_OF_MEMORY, 0, 0, 0));
            EXPECT(all_kept(out, sizeof out) && all_kept(fields, sizeof fields));
        } else {
            EXPECT(is_answered(call, said, other, code, told));
        }
    }
}

static void try_examples(void)
{
    static struct said said[EXAMPLES];
    trying = "example";
    for (size_t k = 0; k < EXAMPLES; k++) {
        tried = examples[k].number;
        said[k] = said_by(&examples[k]);
    }
    for (int round = 0; round < 2; round++) {
        alone = round == 1;
        for (size_t k = 0; k < EXAMPLES; k++) {
            tried = examples[k].number;
            for (enum call call = CHECK; call < SAME; call++)
                try_refused(call, &said[k], NULL);
            for (size_t other = 0; other < EXAMPLES; other++)
                try_refused(SAME, &said[k], &said[other]);
        }
    }
    EXPECT(refusals[CHECK] == 0);
    for (enum call call = NORMALISE; call < CALLS; call++)
        EXPECT(refusals[call] > 0);
}

/* ---- drawn sizes */

/* How often each call was made with drawn sizes. */
static unsigned long draws[CALLS];

/* No memory was refused, so no call may say so. */
static uint32_t granted(enum call call, uint32_t code, const struct bactool_outcome *told)
{
    draws[call]++;
    EXPECT(code != BACTOOL_NO_MEMORY && told->why != BACTOOL_OUT_OF_MEMORY);
    return code;
}

/* Memory for so many octets, which is there. */
static void *taken(size_t size)
{
    void *memory = malloc(size + 1);
    if (memory == NULL) {
        puts("try-memory: the machine has too little memory");
        exit(2);
    }
    return memory;
}

/* A number below `count`, or 0 if a call gave no count. */
static size_t number_below(uint64_t *state, size_t count)
{
    return count == 0 ? 0 : (size_t)(drawn(state) % count);
}

/* The first so many octets of a line are those of a line, or begin one. */
static void try_front(const char *line, size_t length)
{
    struct bactool_outcome told = UNTOLD;
    uint32_t code = granted(READ, bactool_read(line, length, NULL, 0, &told), &told);
    EXPECT(code == BACTOOL_NO_ROOM || (code == BACTOOL_REFUSED && tells(told, BACTOOL_SHORT, length, 0, 0)));
}

/* Reads the line of a frame with these canonical octets, a front of it, and the line with a line feed in it, which is in no
   line. */
static void try_line(uint64_t *state, const struct frame *frame, const uint8_t *canonical, size_t count)
{
    struct bactool_outcome told = UNTOLD;
    EXPECT(granted(SHOW, bactool_show(frame->octets, frame->length, NULL, 0, &told), &told) == BACTOOL_NO_ROOM);
    size_t length = told.count, place = number_below(state, length);
    char *line = taken(length);
    uint8_t *read = taken(count);
    EXPECT(granted(SHOW, bactool_show(frame->octets, frame->length, line, length, &told), &told) == BACTOOL_OK);
    EXPECT(granted(READ, bactool_read(line, length, read, count, &told), &told) == BACTOOL_OK);
    EXPECT(tells(told, 0, 0, count, 0) && memcmp(read, canonical, count) == 0);
    try_front(line, place);
    line[place] = '\n';
    EXPECT(granted(READ, bactool_read(line, length, read, count, &told), &told) == BACTOOL_REFUSED);
    EXPECT(tells(told, BACTOOL_BAD_TEXT, place, 0, 0));
    free(read);
    free(line);
}

/* Decodes a frame with these canonical octets into its fields, and makes the octets of them, and of a front of them. */
static void try_fields(uint64_t *state, const struct frame *frame, const uint8_t *canonical, size_t count)
{
    struct bactool_outcome told = UNTOLD;
    EXPECT(granted(DECODE, bactool_decode(frame->octets, frame->length, NULL, 0, NULL, 0, &told), &told) == BACTOOL_NO_ROOM);
    size_t most = told.fields, front = number_below(state, most);
    struct bactool_field *said = taken(most * sizeof *said);
    uint8_t *octets = taken(count), *made = taken(count);
    EXPECT(granted(DECODE, bactool_decode(frame->octets, frame->length, octets, count, said, most, &told), &told) == BACTOOL_OK);
    EXPECT(tells(told, 0, 0, count, most) && memcmp(octets, canonical, count) == 0);
    EXPECT(granted(ENCODE, bactool_encode(said, most, octets, count, made, count, &told), &told) == BACTOOL_OK);
    EXPECT(tells(told, 0, 0, count, 0) && memcmp(made, canonical, count) == 0);
    uint32_t code = granted(ENCODE, bactool_encode(said, front, octets, count, NULL, 0, &told), &told);
    EXPECT(code == BACTOOL_NO_ROOM || (code == BACTOOL_REFUSED && tells(told, BACTOOL_SHORT, front, 0, 0)));
    free(made);
    free(octets);
    free(said);
}

/* A frame is cut, unless it has no service, or one that is too long. */
static void try_cut(const struct frame *frame)
{
    struct bactool_outcome told = UNTOLD;
    uint32_t code = granted(CUT, bactool_cut(frame->octets, frame->length, 256, WINDOW, NULL, 0, &told), &told);
    EXPECT(code == BACTOOL_NO_ROOM || code == BACTOOL_NO_SERVICE || code == BACTOOL_TOO_LONG);
    EXPECT(tells(told, 0, 0, told.count, 0) && (told.count > 0) == (code == BACTOOL_NO_ROOM));
}

/* The calls on a frame that is accepted. */
static void try_accepted(uint64_t *state, const struct frame *frame)
{
    struct bactool_outcome told = UNTOLD;
    uint8_t *canonical = taken(frame->length);
    const uint8_t *octets = frame->octets;
    EXPECT(granted(NORMALISE, bactool_normalise(octets, frame->length, canonical, frame->length, &told), &told) == BACTOOL_OK);
    size_t count = told.count, front = number_below(state, count);
    EXPECT(frame->verdict != CANONICAL || (count == frame->length && memcmp(canonical, octets, count) == 0));
    EXPECT(granted(SAME, bactool_same_meaning(octets, frame->length, canonical, count, &told), &told) == BACTOOL_OK);
    uint32_t code = granted(SAME, bactool_same_meaning(octets, frame->length, canonical, front, &told), &told);
    EXPECT(code == BACTOOL_DIFFERENT || code == BACTOOL_RIGHT_REFUSED);
    try_fields(state, frame, canonical, count);
    try_line(state, frame, canonical, count);
    try_cut(frame);
    free(canonical);
}

/* A line and fields of drawn lengths, each but a front: octets without a layout, of which the last digit is left out, and
   networks in a list that does not end. */
static void try_fronts(uint64_t *state)
{
    static const char head[] = "prio=0 reply=0 unconf opaque choice=9 octets=";
    size_t length = sizeof head - 1 + 2 * drawn_size(state, CONTENTS), most = 4 + drawn_size(state, ITEMS);
    char *line = taken(length);
    memset(line, '0', length);
    memcpy(line, head, sizeof head - 1);
    try_front(line, length - 1);
    free(line);

    struct bactool_outcome told = UNTOLD;
    struct bactool_field *said = taken(most * sizeof *said);
    for (size_t k = 0; k < most; k++)
        said[k] = (struct bactool_field){BACTOOL_FIELD_LISTED_NETWORK, 5, 0, 0, 0};
    said[0].name = BACTOOL_FIELD_NETWORK_PRIORITY, said[0].number = 0;
    said[1].name = BACTOOL_FIELD_REPLY_EXPECTED, said[1].number = 0;
    said[2].name = BACTOOL_FIELD_NETWORK_MESSAGE, said[2].number = 1;
    said[3].name = BACTOOL_FIELD_NETWORKS, said[3].number = 0;
    EXPECT(granted(ENCODE, bactool_encode(said, most, NULL, 0, NULL, 0, &told), &told) == BACTOOL_REFUSED);
    EXPECT(tells(told, BACTOOL_SHORT, most, 0, 0));
    free(said);
}

/* The calls on octets that are refused so. */
static void try_stopped(uint64_t *state, const struct frame *frame, struct bactool_outcome found)
{
    struct bactool_outcome told = UNTOLD;
    const uint8_t *octets = frame->octets;
    size_t length = frame->length;
    uint8_t *room = taken(length);
    EXPECT(granted(NORMALISE, bactool_normalise(octets, length, room, length, &told), &told) == BACTOOL_REFUSED);
    EXPECT(tells(told, found.why, found.place, 0, 0));
    EXPECT(granted(DECODE, bactool_decode(octets, length, room, length, NULL, 0, &told), &told) == BACTOOL_REFUSED);
    EXPECT(tells(told, found.why, found.place, 0, 0));
    EXPECT(granted(SHOW, bactool_show(octets, length, (char *)room, length, &told), &told) == BACTOOL_REFUSED);
    EXPECT(tells(told, found.why, found.place, 0, 0));
    EXPECT(granted(SAME, bactool_same_meaning(octets, length, octets, length, &told), &told) == BACTOOL_LEFT_REFUSED);
    EXPECT(tells(told, found.why, found.place, 0, 0));
    free(room);
    try_fronts(state);
}

/* The longest service, and room for the records of its segments, or for them twice. */
enum { SERVICE = 65535, RECORDS = 1 << 18 };

/* A message of a service that is not decoded: an answer with so many octets. */
static struct message opaque_answer(size_t length)
{
    static const uint8_t npdu[] = {0x01, 0x00};
    static uint8_t service[SERVICE];
    for (size_t k = service[1] == 0 ? 0 : sizeof service; k < sizeof service; k++)
        service[k] = (uint8_t)(k % 251);
    return (struct message){npdu, sizeof npdu, false, 0, 1, 26, service, length};
}

/* A message of a drawn length, in segments of a drawn size: it is cut, and its segments are joined, from another one on and
   then from the first one on. Without the last one they are not. */
static void try_drawn_message(uint64_t *state)
{
    struct bactool_outcome told = UNTOLD;
    struct message message = opaque_answer(drawn_size(state, SERVICE));
    size_t least = message.length / 256 + 1, size = least + drawn_size(state, SERVICE / 2);
    uint8_t *whole = taken(RECORDS), *records = taken(RECORDS), *room = taken(RECORDS);
    size_t length = put_whole(&message, whole), count = put_segments(&message, size, WINDOW, records), last = 0;
    EXPECT(granted(CUT, bactool_cut(whole, length, size, WINDOW, room, RECORDS, &told), &told) == BACTOOL_OK);
    EXPECT(tells(told, 0, 0, count, 0) && memcmp(room, records, count) == 0);
    for (size_t at = 0; at < count; at += 2 + ((size_t)records[at] << 8 | records[at + 1]))
        last = at;
    memcpy(records + count, records, last);
    EXPECT(granted(JOIN, bactool_join(records + last, count, room, count, &told), &told) == BACTOOL_OK);
    EXPECT(tells(told, 0, 0, length, 0) && memcmp(room, whole, length) == 0);
    EXPECT(granted(JOIN, bactool_join(records, count, room, count, &told), &told) == BACTOOL_OK);
    EXPECT(tells(told, 0, 0, length, 0) && memcmp(room, whole, length) == 0);
    EXPECT(granted(JOIN, bactool_join(records, last, room, count, &told), &told) == BACTOOL_INCOMPLETE);
    EXPECT(tells(told, 0, segments_of(&message, size) - 1, 0, 0));
    free(room);
    free(records);
    free(whole);
}

/* The most octets of memory that a join may hold besides those of the joined message: its heads, which are written first and
   may move, and what malloc adds. */
enum { MOST_BESIDES = 64 };

/* Joins a message of this length in segments of this size, and prints the most memory that the call held. It is that of the
   joined message, since the service is canonical. */
static void measure(size_t length, size_t size)
{
    struct bactool_outcome told = UNTOLD;
    struct message message = opaque_answer(length);
    uint8_t *records = taken(RECORDS), *room = taken(RECORDS);
    size_t count = put_segments(&message, size, WINDOW, records);
    held = most_held = 0;
    EXPECT(granted(JOIN, bactool_join(records, count, room, RECORDS, &told), &told) == BACTOOL_OK);
    EXPECT(held == 0);
    printf("try-memory: to join a message of %zu octets in %zu segments took %zu octets of memory\n", told.count,
           segments_of(&message, size), most_held);
    EXPECT(most_held <= told.count + MOST_BESIDES);
    free(room);
    free(records);
}

/* bactool_check and bactool_head take no memory, and answer alike. */
static void try_without_memory(const struct frame *frame)
{
    struct bactool_outcome checked = UNTOLD, told = UNTOLD;
    struct bactool_frame_head head;
    held = most_held = 0;
    uint32_t code = bactool_check(frame->octets, frame->length, false, &checked);
    bool is_refused = code == BACTOOL_REFUSED;
    EXPECT(bactool_head(frame->octets, frame->length, &head, &told) == (is_refused ? BACTOOL_REFUSED : BACTOOL_OK));
    EXPECT(!is_refused || tells(told, checked.why, checked.place, 0, 0));
    EXPECT(most_held == 0);
}

/* bactool_explain and bactool_explain_text say what bactool_check said. The first pieces have words, and there are lines. */
static void try_explained(const struct frame *frame, uint32_t code, struct bactool_outcome checked)
{
    struct bactool_outcome told = UNTOLD;
    struct bactool_piece pieces[16];
    EXPECT(bactool_explain(frame->octets, frame->length, pieces, 16, &told) == code);
    EXPECT(tells(told, checked.why, checked.place, 0, told.fields));
    EXPECT(0 < told.fields && told.fields <= frame->length + 1);
    size_t known = told.fields < 16 ? told.fields : 16;
    for (size_t k = 0; k < known; k++)
        EXPECT(bactool_piece_text(pieces + k, frame->octets, frame->length, NULL, 0, &told) == BACTOOL_NO_ROOM);
    EXPECT(bactool_piece_text(pieces, frame->octets, frame->length, (char *)out, sizeof out, &told) == BACTOOL_OK);
    EXPECT(granted(EXPLAIN_TEXT, bactool_explain_text(frame->octets, frame->length, NULL, 0, &told), &told) == code);
    EXPECT(tells(told, checked.why, checked.place, told.count, 0) && told.count > frame->length);
    size_t room = told.count;
    char *lines = taken(room);
    EXPECT(granted(EXPLAIN_TEXT, bactool_explain_text(frame->octets, frame->length, lines, room, &told), &told) == code);
    EXPECT(tells(told, checked.why, checked.place, room, 0) && room > 0 && lines[room - 1] == '\n');
    free(lines);
}

/* Makes each call with a drawn frame, or with what is drawn in its place. */
static void try_drawn(struct frame *frame)
{
    struct bactool_outcome told = UNTOLD;
    draw_frame(frame, 2 * CONTENTS);
    try_without_memory(frame);
    uint32_t code = granted(CHECK, bactool_check(frame->octets, frame->length, false, &told), &told);
    bool is_canonical = code == BACTOOL_OK, is_tolerated = code == BACTOOL_TOLERATED;
    EXPECT(is_canonical || is_tolerated || code == BACTOOL_REFUSED);
    try_explained(frame, code, told);
    EXPECT(frame->verdict == UNKNOWN || is_canonical == (frame->verdict == CANONICAL));
    EXPECT(frame->verdict == UNKNOWN || is_tolerated == (frame->verdict == TOLERATED));
    if (is_canonical || is_tolerated)
        try_accepted(frame->state, frame);
    else
        try_stopped(frame->state, frame, told);
}

int main(int count, char **words)
{
    uint64_t state = count > 1 ? strtoull(words[1], NULL, 10) : 0;
    unsigned long most = count > 2 ? strtoul(words[2], NULL, 10) : 0, all = 0;
    if (state == 0)
        return 2;
    setvbuf(stdout, NULL, _IOLBF, BUFSIZ); /* so that what is wrong is printed even if a call ends the program */
    try_examples();
    struct frame frame = {.octets = taken(ROOM), .state = &state};
    trying = "draw";
    for (tried = 1; tried <= most; tried++) {
        try_drawn(&frame);
        try_drawn_message(&state);
    }
    free(frame.octets);
    trying = "length";
    measure(tried = 1000, 1000);
    measure(tried = 1000, 480);
    measure(tried = 16384, 1024);
    measure(tried = SERVICE, 256);
    for (enum call call = CHECK; call < CALLS; call++) {
        EXPECT(draws[call] >= most);
        all += refusals[call];
    }
    printf("try-memory: %lu refused allocations, and %lu draws of the sizes of each call: %lu faults\n", all, most, faults);
    return faults != 0;
}
