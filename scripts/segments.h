/* SPDX-License-Identifier: Apache-2.0 OR MIT */
/*
 * Messages in one piece, and the records of their segments, made of octets by sections 4, 6 and 7 of docs/FORMATS.md.
 * What must come of them is known from how they are made, so no call of the library is asked.
 */
#include <stdbool.h>
#include <stddef.h>
#include <stdint.h>
#include <string.h>

/* A Confirmed-Request or a ComplexACK. */
struct message {
    const uint8_t *npdu; /* what is before the APDU */
    size_t npdu_length;
    bool is_request;
    uint8_t accepts; /* how many segments of how many octets an answer to the request may have */
    uint8_t invoke, choice;
    const uint8_t *service;
    size_t length;
};

/* Puts what is before the service of a frame, or of a segment with this number if `more` is not negative. Returns how
   many octets there are. */
static size_t put_message_head(const struct message *message, int more, uint8_t number, uint8_t window, uint8_t *out)
{
    size_t count = message->npdu_length;
    memcpy(out, message->npdu, count);
    out[count++] = (uint8_t)((message->is_request ? 0x00 : 0x30) | (more < 0 ? 0x00 : more > 0 ? 0x0C : 0x08));
    if (message->is_request)
        out[count++] = message->accepts;
    out[count++] = message->invoke;
    if (more >= 0) {
        out[count++] = number;
        out[count++] = window;
    }
    out[count++] = message->choice;
    return count;
}

/* Puts the frame in one piece. Returns how many octets it has. */
static size_t put_whole(const struct message *message, uint8_t *out)
{
    size_t count = put_message_head(message, -1, 0, 0, out);
    if (message->length > 0)
        memcpy(out + count, message->service, message->length);
    return count + message->length;
}

/* How many segments of this size the message has. */
static size_t segments_of(const struct message *message, size_t size)
{
    return message->length == 0 ? 1 : (message->length - 1) / size + 1;
}

/* Puts the record of a segment. Returns how many octets it has. */
static size_t put_segment(const struct message *message, size_t size, uint8_t window, size_t number, uint8_t *out)
{
    size_t begin = number * size, rest = message->length - begin, piece = rest < size ? rest : size;
    size_t length = put_message_head(message, piece < rest, (uint8_t)number, window, out + 2);
    if (piece > 0)
        memcpy(out + 2 + length, message->service + begin, piece);
    length += piece;
    out[0] = (uint8_t)(length >> 8);
    out[1] = (uint8_t)length;
    return 2 + length;
}

/* Puts the records of all segments. Returns how many octets they have. */
static size_t put_segments(const struct message *message, size_t size, uint8_t window, uint8_t *out)
{
    size_t count = 0;
    for (size_t number = 0; number < segments_of(message, size); number++)
        count += put_segment(message, size, window, number, out + count);
    return count;
}
