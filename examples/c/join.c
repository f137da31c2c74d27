/* SPDX-License-Identifier: Apache-2.0 OR MIT */
/*
 * A receiver of messages in segments, without its sockets: reads a frame file of what it receives, keeps the segments
 * of each message, and shows the message when it is whole, with the number of the record that made it so.
 *
 *     cc examples/c/join.c $(pkg-config --cflags --libs bactool) -o join
 *     ./join < examples/segments.frames
 *
 * The peer of a message is the source in the NPDU, which is there if a router passed it on. A receiver with sockets
 * also compares where the packet came from, and answers with SegmentACKs. What is no segment is passed over.
 *
 * The status is 0 if each record and each message is accepted, 1 if one is refused, and 2 if the input cannot be read
 * or ends within a record, if the output cannot be written, if memory is refused, or if there is a word after the
 * command.
 */
#include <bactool.h>
#include <stdio.h>
#include <stdlib.h>
#include <string.h>

enum { ACCEPTED = 0, REFUSED = 1, FAILED = 2, LONGEST = 65535, MOST_ADDRESS = 255 };

/* How many messages are kept at once, and how many octets of segments each may have, with those that come again. */
enum { MOST_MESSAGES = 8, MOST_RECORDS = 1 << 17 };

/* A message of which segments came. */
struct message {
    unsigned latest;                 /* the number of its latest record, or 0 if there is no message here */
    bool is_whole;                   /* whether it was shown, so that its segments may only come again */
    uint32_t pdu, invoke, network;   /* request or answer, the invoke id, and the network of the peer */
    size_t address_length;
    uint8_t address[MOST_ADDRESS];   /* the address of the peer */
    size_t length;
    uint8_t records[MOST_RECORDS];   /* its segments, as bactool_join takes them */
};

static struct message messages[MOST_MESSAGES];

static bool is_of(const struct message *message, const uint8_t *frame, const struct bactool_frame_head *head)
{
    return message->latest != 0 && message->pdu == head->pdu && message->invoke == head->invoke
        && message->network == head->source.network && message->address_length == head->source.length
        && memcmp(message->address, frame + head->source.place, head->source.length) == 0;
}

/* Begins the message of a segment, in the place of another one. */
static void begin(struct message *message, const uint8_t *frame, const struct bactool_frame_head *head)
{
    message->is_whole = false;
    message->pdu = head->pdu;
    message->invoke = head->invoke;
    message->network = head->source.network;
    message->address_length = head->source.length;
    memcpy(message->address, frame + head->source.place, head->source.length);
    message->length = 0;
}

/* Returns the message of a segment. If it is a new one, it has the place of the message that waits longest. */
static struct message *message_of(const uint8_t *frame, const struct bactool_frame_head *head)
{
    struct message *oldest = &messages[0];
    for (int k = 0; k < MOST_MESSAGES; k++) {
        if (is_of(&messages[k], frame, head))
            return &messages[k];
        if (messages[k].latest < oldest->latest)
            oldest = &messages[k];
    }
    begin(oldest, frame, head);
    return oldest;
}

/* Keeps a segment as a record. If there is no room left, the records before it are dropped. */
static void keep(struct message *message, const uint8_t *frame, size_t length)
{
    if (message->length + 2 + length > sizeof message->records)
        message->length = 0;
    uint8_t *record = message->records + message->length;
    record[0] = (uint8_t)(length >> 8);
    record[1] = (uint8_t)length;
    memcpy(record + 2, frame, length);
    message->length += 2 + length;
}

/* Reports what is refused, with why and where. Returns the status. */
static int refused(unsigned number, const char *what, const struct bactool_outcome *outcome)
{
    char name[16];
    size_t count = bactool_reason(outcome->why, name, sizeof name);
    fprintf(stderr, "join: record %u: %s %.*s at %zu\n", number, what, (int)count, name, outcome->place);
    return REFUSED;
}

static int out_of_memory(void)
{
    fprintf(stderr, "join: out of memory\n");
    return FAILED;
}

/* Prints the text of a frame. Returns the status. */
static int show(unsigned number, const uint8_t *frame, size_t length)
{
    struct bactool_outcome outcome;
    bactool_show(frame, length, NULL, 0, &outcome);
    char *text = malloc(outcome.count + 1);
    if (text == NULL || bactool_show(frame, length, text, outcome.count, &outcome) != BACTOOL_OK) {
        free(text);
        return out_of_memory();
    }
    printf("%u %.*s\n", number, (int)outcome.count, text);
    free(text);
    return ACCEPTED;
}

/* Adds a segment to its message, and shows the message if it is whole. Returns the status. */
static int join(unsigned number, struct message *message, const uint8_t *frame, size_t length)
{
    static uint8_t whole[MOST_RECORDS];
    struct bactool_outcome outcome;
    keep(message, frame, length);
    switch (bactool_join(message->records, message->length, whole, sizeof whole, &outcome)) {
    case BACTOOL_OK:
        message->is_whole = true;
        return show(number, whole, outcome.count);
    case BACTOOL_INCOMPLETE:
        return ACCEPTED;
    case BACTOOL_SERVICE_REFUSED:
        message->is_whole = true;
        return refused(number, "joined and refused", &outcome);
    case BACTOOL_NO_MEMORY:
        return out_of_memory();
    default:
        /* It is not of the message that was waiting, so it begins another one. Number 255 can also be of none. */
        message->length = 0;
        return outcome.place == 0 ? ACCEPTED : join(number, message, frame, length);
    }
}

/* Takes one record. Returns the status for it. */
static int take(unsigned number, const uint8_t *frame, size_t length)
{
    struct bactool_outcome outcome;
    struct bactool_frame_head head;
    switch (bactool_head(frame, length, &head, &outcome)) {
    case BACTOOL_OK:
        break;
    case BACTOOL_REFUSED:
        return refused(number, "refused", &outcome);
    default:
        return out_of_memory();
    }
    if (!head.segmented)
        return ACCEPTED;
    struct message *message = message_of(frame, &head);
    message->latest = number;
    if (message->is_whole && head.sequence != 0)
        return ACCEPTED;
    if (message->is_whole)
        begin(message, frame, &head);
    return join(number, message, frame, length);
}

/* Reads the next record: two octets of length, and so many octets. Returns 1 if there is one, 0 at the end of the file,
   and -1 if there is a fault. */
static int read_record(uint8_t *frame, size_t *length)
{
    uint8_t head[2];
    size_t taken = fread(head, 1, sizeof head, stdin);
    if (taken < sizeof head)
        return taken == 0 && !ferror(stdin) ? 0 : -1;
    *length = (size_t)head[0] << 8 | head[1];
    return fread(frame, 1, *length, stdin) == *length ? 1 : -1;
}

int main(int count, char **words)
{
    static uint8_t frame[LONGEST];
    size_t length = 0;
    int status = ACCEPTED, more = 0;
    unsigned number = 1;
    if (count > 1) {
        fprintf(stderr, "join: unexpected word '%s'\nusage: join < FILE\n", words[1]);
        return FAILED;
    }
    while (status != FAILED && (more = read_record(frame, &length)) > 0) {
        int one = take(number++, frame, length);
        if (one > status)
            status = one;
    }
    if (more < 0 && ferror(stdin))
        perror("join: standard input");
    else if (more < 0)
        fprintf(stderr, "join: the file ends within record %u\n", number);
    if (fflush(stdout) != 0 || ferror(stdout)) {
        perror("join: standard output");
        return FAILED;
    }
    return more < 0 ? FAILED : status;
}
