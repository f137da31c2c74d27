/* SPDX-License-Identifier: Apache-2.0 OR MIT */
/*
 * Frames with drawn lengths and counts, made of octets by sections 1 to 6 of docs/FORMATS.md. What must come of each is
 * known from how it is made, so no call of the library is asked.
 */
#include "drawn.h"
#include <stdbool.h>
#include <string.h>

/* What must come of the octets of a frame. */
enum verdict { CANONICAL, TOLERATED, REFUSED, UNKNOWN };

/* The longest contents of an element, and the most items of a list. No frame of these is longer than ROOM. */
enum { CONTENTS = 1 << 20, ITEMS = 300000, ROOM = 1 << 23 };

/* A frame that is made: its octets, how many items or octets of contents it has at most, and what must come of it. */
struct frame {
    uint8_t *octets;
    size_t length, most;
    enum verdict verdict;
    uint64_t *state;
};

static void put(struct frame *frame, const void *octets, size_t count)
{
    memcpy(frame->octets + frame->length, octets, count);
    frame->length += count;
}

/* Puts the octets of a literal. */
#define PUT(frame, ...) \
    put(frame, (const uint8_t[]){__VA_ARGS__}, sizeof(const uint8_t[]){__VA_ARGS__})

static void put_times(struct frame *frame, uint8_t octet, size_t count)
{
    memset(frame->octets + frame->length, octet, count);
    frame->length += count;
}

/* A number below `count`. */
static size_t below(struct frame *frame, size_t count)
{
    return (size_t)(drawn(frame->state) % count);
}

/* A drawn number of items or octets, at most `most`, and at most as many as the frame may have. */
static size_t sized(struct frame *frame, size_t most)
{
    return drawn_size(frame->state, most < frame->most ? most : frame->most);
}

/* Octets that have no layout: a service without a production, the piece of a segment, an opaque network message. */
static void put_opaque(struct frame *frame)
{
    switch (below(frame, 8)) {
    case 0: PUT(frame, 0x01, 0x00, 0x10, 0x09); break;
    case 1: PUT(frame, 0x01, 0x04, 0x00, 0x05, 0x01, 0x11); break;
    case 2: PUT(frame, 0x01, 0x00, 0x30, 0x01, 0x06); break;
    case 3: PUT(frame, 0x01, 0x00, 0x50, 0x01, 0x06); break;
    case 4: PUT(frame, 0x01, 0x04, 0x0C, 0x75, 0x01, 0x00, 0x02, 0x0F); break;
    case 5: PUT(frame, 0x01, 0x00, 0x3C, 0x01, 0x00, 0x04, 0x0C); break;
    case 6: PUT(frame, 0x01, 0x80, 0x14); break;
    default: PUT(frame, 0x01, 0x80, 0x80, 0x01, 0x04);
    }
    put_times(frame, (uint8_t)drawn(frame->state), sized(frame, 2 * CONTENTS));
}

/* A destination and a source with addresses of drawn lengths, before an opaque request. */
static void put_addresses(struct frame *frame)
{
    uint8_t to = (uint8_t)sized(frame, 255), from = (uint8_t)sized(frame, 255);
    PUT(frame, 0x01, 0x28, 0x00, 0x05, to);
    put_times(frame, 0x0A, to);
    PUT(frame, 0x00, 0x07, from);
    put_times(frame, 0x0B, from);
    PUT(frame, 0xFF, 0x10, 0x09);
    put_times(frame, 0xAA, sized(frame, 2 * CONTENTS));
}

static void put_networks(struct frame *frame)
{
    static const uint8_t types[] = {0x01, 0x04, 0x05};
    PUT(frame, 0x01, 0x80, types[below(frame, 3)]);
    put_times(frame, 0x05, 2 * sized(frame, ITEMS));
}

/* A routing table: at most 255 ports, each with at most 255 octets of information. */
static void put_ports(struct frame *frame)
{
    uint8_t ports = (uint8_t)sized(frame, 255);
    PUT(frame, 0x01, 0x80, 0x06, ports);
    for (uint8_t port = 0; port < ports; port++) {
        uint8_t length = (uint8_t)sized(frame, 255);
        PUT(frame, 0x00, 0x02, port, length);
        put_times(frame, 0xAA, length);
    }
}

/* The head of a ReadProperty-ACK up to its value. */
static void put_answer(struct frame *frame)
{
    PUT(frame, 0x01, 0x00, 0x30, 0x01, 0x0C, 0x0C, 0x00, 0x00, 0x00, 0x05, 0x19, 0x55, 0x3E);
}

/* The length of an element whose tag's number and class are in the initial octet. One time in four it is in the form with
   four octets, which is wider than needed below 65,536. */
static void put_head(struct frame *frame, uint8_t initial, size_t length)
{
    bool is_wide = below(frame, 4) == 0;
    if (is_wide && length < 65536)
        frame->verdict = TOLERATED;
    if (is_wide || length > 65535)
        PUT(frame, initial | 5, 0xFF, (uint8_t)(length >> 24), (uint8_t)(length >> 16), (uint8_t)(length >> 8), (uint8_t)length);
    else if (length > 253)
        PUT(frame, initial | 5, 0xFE, (uint8_t)(length >> 8), (uint8_t)length);
    else if (length > 4)
        PUT(frame, initial | 5, (uint8_t)length);
    else
        PUT(frame, initial | (uint8_t)length);
}

/* A value with one element of a drawn length: octets, a text in quotation marks or in digits, bits, or a context primitive. */
static void put_contents(struct frame *frame)
{
    size_t length = sized(frame, CONTENTS);
    uint8_t unused;
    put_answer(frame);
    switch (below(frame, 5)) {
    case 0:
        put_head(frame, 0x60, length);
        break;
    case 1:
        put_head(frame, 0x70, length);
        PUT(frame, 0x00);
        put_times(frame, 'A', length - 1);
        length = 0;
        break;
    case 2:
        put_head(frame, 0x70, length);
        PUT(frame, 0x05);
        length--;
        break;
    case 3:
        put_head(frame, 0x80, length);
        length--;
        unused = length > 0 ? (uint8_t)below(frame, 8) : 0;
        PUT(frame, unused);
        if (unused > 0)
            frame->verdict = TOLERATED; /* since unused bits are 1 */
        break;
    default:
        put_head(frame, 0x18, length);
    }
    put_times(frame, 0xFF, length);
    PUT(frame, 0x3F);
}

/* One drawn element without contents of a drawn length. */
static void put_element(struct frame *frame)
{
    switch (below(frame, 8)) {
    case 0: PUT(frame, 0x00); break;
    case 1: PUT(frame, 0x11); break;
    case 2: PUT(frame, 0x21, 0x55); break;
    case 3: PUT(frame, 0x31, 0xFF); break;
    case 4: PUT(frame, 0x44, 0x42, 0x90, 0x99, 0x9A); break;
    case 5: PUT(frame, 0x91, 0x03); break;
    case 6: PUT(frame, 0xC4, 0x00, 0x00, 0x00, 0x05); break;
    default: PUT(frame, 0x1A, 0x00, 0x55);
    }
}

/* A value with a drawn number of elements, in groups that nest up to the limit. */
static void put_elements(struct frame *frame)
{
    unsigned depth = 0, deepest = (unsigned)sized(frame, 33) - 1;
    put_answer(frame);
    for (size_t left = sized(frame, ITEMS); left > 0; left--) {
        size_t choice = below(frame, 4);
        if (choice == 0 && depth < deepest) {
            PUT(frame, 0x2E);
            depth++;
        } else if (choice == 1 && depth > 0) {
            PUT(frame, 0x2F);
            depth--;
        } else {
            put_element(frame);
        }
    }
    put_times(frame, 0x2F, depth);
    PUT(frame, 0x3F);
}

/* Lists with a drawn number of items in all, each of an object. */
static void put_lists(struct frame *frame, void put_item(struct frame *frame))
{
    for (size_t left = sized(frame, ITEMS), items; left > 0; left -= items) {
        items = drawn_size(frame->state, left);
        PUT(frame, 0x0C, 0x00, 0x00, 0x00, 0x05, 0x1E);
        for (size_t item = 0; item < items; item++)
            put_item(frame);
        PUT(frame, 0x1F);
    }
}

/* A result of a ReadPropertyMultiple-ACK. */
static void put_result(struct frame *frame)
{
    if (below(frame, 2) == 0) {
        PUT(frame, 0x29, 0x67, 0x5E, 0x91, 0x02, 0x91, 0x20, 0x5F);
        return;
    }
    PUT(frame, 0x29, 0x55, 0x4E);
    put_element(frame);
    PUT(frame, 0x4F);
}

/* A value of a property in a notification or a WritePropertyMultiple. */
static void put_value(struct frame *frame)
{
    PUT(frame, 0x09, 0x55, 0x2E);
    put_element(frame);
    PUT(frame, 0x2F);
}

static void put_results(struct frame *frame)
{
    PUT(frame, 0x01, 0x00, 0x30, 0x01, 0x0E);
    put_lists(frame, put_result);
}

static void put_writes(struct frame *frame)
{
    PUT(frame, 0x01, 0x04, 0x00, 0x02, 0x01, 0x10);
    put_lists(frame, put_value);
}

static void put_notification(struct frame *frame)
{
    PUT(frame, 0x01, 0x00, 0x10, 0x02, 0x09, 0x12, 0x1C, 0x02, 0x00, 0x00, 0x04, 0x2C, 0x00, 0x00, 0x00, 0x0A, 0x39, 0x00, 0x4E);
    for (size_t left = sized(frame, ITEMS); left > 0; left--)
        put_value(frame);
    PUT(frame, 0x4F);
}

/* Octets by chance after a version octet, which may be of any verdict. */
static void put_noise(struct frame *frame)
{
    PUT(frame, 0x01);
    for (size_t left = sized(frame, 2 * CONTENTS); left > 0; left--)
        PUT(frame, (uint8_t)drawn(frame->state));
    frame->verdict = UNKNOWN;
}

/* Contents that are longer than those of any element. */
static void put_too_long(struct frame *frame)
{
    size_t length = CONTENTS + sized(frame, CONTENTS);
    put_answer(frame);
    put_head(frame, 0x60, length);
    put_times(frame, 0x00, length);
    PUT(frame, 0x3F);
    frame->verdict = REFUSED;
}

/* Makes one drawn frame, of which no count and no length of contents is more than `most`. One in eight is cut, so that
   anything may come of it, and of one in eight the reserved bits are set, so that it is tolerated at best. */
static void draw_frame(struct frame *frame, size_t most)
{
    static void (*const kinds[])(struct frame *) = {
        put_opaque, put_addresses, put_networks, put_ports, put_contents, put_elements, put_results, put_writes,
        put_notification, put_noise, put_too_long};
    size_t count = sizeof kinds / sizeof *kinds - (most <= CONTENTS); /* the last one has more than `most` */
    frame->length = 0;
    frame->most = most;
    frame->verdict = CANONICAL;
    kinds[below(frame, count)](frame);
    size_t choice = below(frame, 8);
    if (choice == 0) {
        frame->length = below(frame, frame->length);
        frame->verdict = UNKNOWN;
    } else if (choice == 1) {
        frame->octets[1] |= 0x50;
        frame->verdict = frame->verdict == CANONICAL ? TOLERATED : frame->verdict;
    }
}
