/* SPDX-License-Identifier: Apache-2.0 OR MIT */
/*
 * A device with one analog value, without its sockets: reads a frame file of what it receives, and writes a frame file
 * of what it answers.
 *
 *     cc examples/c/server.c $(pkg-config --cflags --libs bactool) -o server
 *     echo 'prio=0 reply=1 conf id=1 sa=0 segs=0 resp=5 ReadProperty object=2:1 property=85' \
 *         | bactool read | ./server | bactool show
 *
 * prints `1 prio=0 reply=0 ack id=1 ReadProperty object=2:1 property=85 value={r:41AC0000}`.
 *
 * It answers ReadProperty, WriteProperty and Who-Is. It rejects other confirmed requests, and passes over everything
 * else. Whoever is on another network gets the answer there.
 *
 * The status is 0 if each record is accepted, 1 if one is refused, and 2 if the input cannot be read or ends within a
 * record, if the output cannot be written, if memory is refused, or if there is a word after the command.
 */
#include <bactool_helpers.h>
#include <bactool_names.h>
#include <stdio.h>

enum { ACCEPTED = 0, REFUSED = 1, FAILED = 2, LONGEST = 65535, MOST_OCTETS = 1497, DEVICE = 1, VENDOR = 99 };

/* The one object: an analog value. */
static const uint32_t POINT = BACTOOL_OBJECT(BACTOOL_TYPE_ANALOG_VALUE, 1);
static const char NAME[] = "setpoint";
static float present_value = 21.5f;

/* A frame that was received. */
struct request {
    const struct bactool_field *fields;
    size_t count;
    const uint8_t *octets;
};

static const struct bactool_field *part(const struct request *request, enum bactool_field_name name)
{
    return bactool_find(request->fields, request->count, name);
}

/* A number of the request, or another one if it is not there. */
static uint64_t number_of(const struct request *request, enum bactool_field_name name, uint64_t otherwise)
{
    const struct bactool_field *field = part(request, name);
    return field != NULL ? field->number : otherwise;
}

/* The head of a frame to whoever sent the request. */
static void say_head(struct bactool_builder *answer, const struct request *request)
{
    const struct bactool_field *source = part(request, BACTOOL_FIELD_SOURCE);
    bactool_say_head(answer, false);
    if (source != NULL)
        bactool_say_destination(answer, source->number, request->octets + source->place + source->head, source->length);
}

/* Which code of an error of a property the request ends with; SUCCESS if with none. */
static uint32_t fault_of(const struct bactool_property *asked)
{
    if (asked->property->number != BACTOOL_PROPERTY_PRESENT_VALUE
        && asked->property->number != BACTOOL_PROPERTY_OBJECT_NAME)
        return BACTOOL_ERROR_CODE_UNKNOWN_PROPERTY;
    return asked->index != NULL ? BACTOOL_ERROR_CODE_PROPERTY_IS_NOT_AN_ARRAY : BACTOOL_ERROR_CODE_SUCCESS;
}

static void say_result(struct bactool_builder *answer, uint8_t id, const struct bactool_property *asked)
{
    bactool_say_answer(answer, id, BACTOOL_FIELD_READ_PROPERTY);
    bactool_say(answer, BACTOOL_FIELD_OBJECT, POINT);
    bactool_say(answer, BACTOOL_FIELD_PROPERTY, asked->property->number);
    bactool_say(answer, BACTOOL_FIELD_VALUE, 0);
    if (asked->property->number == BACTOOL_PROPERTY_PRESENT_VALUE)
        bactool_say_real(answer, present_value);
    else
        bactool_say_text(answer, NAME, strlen(NAME));
    bactool_say(answer, BACTOOL_FIELD_VALUE_END, 0);
}

/* Writes the present value. Returns the code of an error, or SUCCESS. */
static uint32_t write_value(const struct bactool_property *asked)
{
    if (asked->property->number != BACTOOL_PROPERTY_PRESENT_VALUE)
        return BACTOOL_ERROR_CODE_WRITE_ACCESS_DENIED;
    if (asked->value.count != 1 || !bactool_as_float(asked->value.fields, &present_value))
        return BACTOOL_ERROR_CODE_INVALID_DATA_TYPE;
    return BACTOOL_ERROR_CODE_SUCCESS;
}

/* Answers a ReadProperty or a WriteProperty. */
static void say_property(struct bactool_builder *answer, const struct request *request, uint8_t id)
{
    bool is_write = part(request, BACTOOL_FIELD_WRITE_PROPERTY) != NULL;
    uint8_t choice = is_write ? BACTOOL_CHOICE_WRITE_PROPERTY : BACTOOL_CHOICE_READ_PROPERTY;
    struct bactool_property asked = bactool_properties(request->fields, request->count);
    bactool_next_property(&asked); /* both services have one property */
    if (asked.object->number != POINT) {
        bactool_say_error(answer, id, choice, BACTOOL_ERROR_CLASS_OBJECT, BACTOOL_ERROR_CODE_UNKNOWN_OBJECT);
        return;
    }
    uint32_t fault = fault_of(&asked);
    if (fault == BACTOOL_ERROR_CODE_SUCCESS && is_write)
        fault = write_value(&asked);
    if (fault != BACTOOL_ERROR_CODE_SUCCESS)
        bactool_say_error(answer, id, choice, BACTOOL_ERROR_CLASS_PROPERTY, fault);
    else if (is_write)
        bactool_say_simple_ack(answer, id, choice);
    else
        say_result(answer, id, &asked);
}

static void say_i_am(struct bactool_builder *answer)
{
    bactool_say_unconfirmed(answer, BACTOOL_FIELD_I_AM);
    bactool_say_object(answer, BACTOOL_FIELD_OBJECT, BACTOOL_TYPE_DEVICE, DEVICE);
    bactool_say(answer, BACTOOL_FIELD_MAX_APDU, 1476);
    bactool_say(answer, BACTOOL_FIELD_SEGMENTATION, BACTOOL_SEGMENTATION_NO_SEGMENTATION);
    bactool_say(answer, BACTOOL_FIELD_VENDOR, VENDOR);
}

/* Says the answer to a request. Returns false if there is none. */
static bool say(struct bactool_builder *answer, const struct request *request)
{
    uint8_t id = (uint8_t)number_of(request, BACTOOL_FIELD_INVOKE_ID, 0);
    say_head(answer, request);
    if (part(request, BACTOOL_FIELD_WHO_IS) != NULL) {
        say_i_am(answer);
        return number_of(request, BACTOOL_FIELD_LOW, 0) <= DEVICE
            && DEVICE <= number_of(request, BACTOOL_FIELD_HIGH, 0x3FFFFF);
    }
    if (part(request, BACTOOL_FIELD_REQUEST_SEGMENT) != NULL) {
        bactool_say_abort(answer, id, true, BACTOOL_ABORT_SEGMENTATION_NOT_SUPPORTED);
        return true;
    }
    if (part(request, BACTOOL_FIELD_CONFIRMED_REQUEST) == NULL)
        return false;
    if (part(request, BACTOOL_FIELD_READ_PROPERTY) != NULL || part(request, BACTOOL_FIELD_WRITE_PROPERTY) != NULL)
        say_property(answer, request, id);
    else
        bactool_say_reject(answer, id, BACTOOL_REJECT_UNRECOGNIZED_SERVICE);
    return true;
}

/* Writes the answer to a request as a record, if there is one. Returns the status. */
static int answer(const struct request *request)
{
    struct bactool_field fields[32];
    uint8_t contents[512], out[2 + MOST_OCTETS];
    struct bactool_builder builder = bactool_builder_over(fields, 32, contents, sizeof contents);
    struct bactool_outcome outcome;
    if (!say(&builder, request))
        return ACCEPTED;
    uint32_t code = bactool_builder_encode(&builder, out + 2, MOST_OCTETS, &outcome);
    if (code != BACTOOL_OK) {
        fprintf(stderr, "server: no answer: code %u at %zu\n", (unsigned)code, outcome.place);
        return FAILED;
    }
    out[0] = (uint8_t)(outcome.count >> 8);
    out[1] = (uint8_t)outcome.count;
    fwrite(out, 1, 2 + outcome.count, stdout);
    return ACCEPTED;
}

/* Answers one record. Returns the status for it. */
static int serve(unsigned number, const uint8_t *frame, size_t length)
{
    static uint8_t octets[LONGEST];
    static struct bactool_field fields[BACTOOL_MOST_FIELDS(LONGEST)];
    struct bactool_outcome outcome;
    char name[16];
    switch (bactool_decode(frame, length, octets, sizeof octets, fields, BACTOOL_MOST_FIELDS(length), &outcome)) {
    case BACTOOL_OK: {
        struct request request = {fields, outcome.fields, octets};
        return answer(&request);
    }
    case BACTOOL_REFUSED:
        fprintf(stderr, "server: record %u: refused %.*s at %zu\n", number,
                (int)bactool_reason(outcome.why, name, sizeof name), name, outcome.place);
        return REFUSED;
    default:
        fprintf(stderr, "server: out of memory\n");
        return FAILED;
    }
}

/* Reads the next record: two octets of length, and so many octets. Returns 1 if there is one, 0 at the end of the file,
   and -1 if there is a fault. */
static int read_record(uint8_t *frame, size_t *length)
{
    uint8_t head[2];
    size_t taken = fread(head, 1, sizeof head, stdin);
    if (taken < sizeof head)
        return taken == 0 && !ferror(stdin) ? 0 : -1;
    *length = (size_t)head[0] << 8 | head[1];
    return fread(frame, 1, *length, stdin) == *length ? 1 : -1;
}

int main(int count, char **words)
{
    static uint8_t frame[LONGEST];
    size_t length = 0;
    int status = ACCEPTED, more = 0;
    unsigned number = 1;
    if (count > 1) {
        fprintf(stderr, "server: unexpected word '%s'\nusage: server < FILE\n", words[1]);
        return FAILED;
    }
    while (status != FAILED && (more = read_record(frame, &length)) > 0) {
        int one = serve(number++, frame, length);
        if (one > status)
            status = one;
    }
    if (more < 0 && ferror(stdin))
        perror("server: standard input");
    else if (more < 0)
        fprintf(stderr, "server: the file ends within record %u\n", number);
    if (fflush(stdout) != 0 || ferror(stdout)) {
        perror("server: standard output");
        return FAILED;
    }
    return more < 0 ? FAILED : status;
}
