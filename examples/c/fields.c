/* SPDX-License-Identifier: Apache-2.0 OR MIT */
/*
 * Frames made of fields: a request, two answers to requests, and a request that was read and is changed. Prints the
 * octets of each, and its text:
 *
 *     cc examples/c/fields.c $(pkg-config --cflags --libs bactool) -o fields
 *     ./fields
 *
 * The status is 0 if each frame is made, and else 2, also if there is a word after the command.
 */
#include <bactool_helpers.h>
#include <bactool_names.h>
#include <stdio.h>

enum { MOST_OCTETS = 1497, MOST_TEXT = 512 };

/* Prints what is refused, and why. Returns the status. */
static int refused(const char *what, uint32_t code, const struct bactool_outcome *outcome)
{
    char name[16];
    size_t count = bactool_reason(outcome->why, name, sizeof name);
    fprintf(stderr, "fields: %s: code %u, %.*s at %zu\n", what, (unsigned)code, (int)count, name, outcome->place);
    return 2;
}

/* Prints the octets of a frame, and its text. */
static int print(const char *what, const uint8_t *octets, size_t length)
{
    char text[MOST_TEXT];
    struct bactool_outcome outcome;
    for (size_t i = 0; i < length; i++)
        printf("%02X", octets[i]);
    uint32_t code = bactool_show(octets, length, text, sizeof text, &outcome);
    if (code != BACTOOL_OK)
        return refused(what, code, &outcome);
    printf(" %.*s\n", (int)outcome.count, text);
    return 0;
}

/* Prints the frame of a builder. */
static int print_built(const char *what, const struct bactool_builder *builder)
{
    uint8_t out[MOST_OCTETS];
    struct bactool_outcome outcome;
    uint32_t code = bactool_builder_encode(builder, out, sizeof out, &outcome);
    return code == BACTOOL_OK ? print(what, out, outcome.count) : refused(what, code, &outcome);
}

/* Asks for the present value of an analog input. */
static int request(uint32_t instance)
{
    struct bactool_field fields[16];
    struct bactool_builder builder = bactool_builder_over(fields, 16, NULL, 0);
    bactool_say_head(&builder, true);
    bactool_say_request(&builder, 1, BACTOOL_FIELD_READ_PROPERTY);
    bactool_say_object(&builder, BACTOOL_FIELD_OBJECT, BACTOOL_TYPE_ANALOG_INPUT, instance);
    bactool_say(&builder, BACTOOL_FIELD_PROPERTY, BACTOOL_PROPERTY_PRESENT_VALUE);
    return print_built("request", &builder);
}

/* Answers it with a Real. */
static int answer(uint32_t instance, float value)
{
    struct bactool_field fields[16];
    struct bactool_builder builder = bactool_builder_over(fields, 16, NULL, 0);
    bactool_say_head(&builder, false);
    bactool_say_answer(&builder, 1, BACTOOL_FIELD_READ_PROPERTY);
    bactool_say_object(&builder, BACTOOL_FIELD_OBJECT, BACTOOL_TYPE_ANALOG_INPUT, instance);
    bactool_say(&builder, BACTOOL_FIELD_PROPERTY, BACTOOL_PROPERTY_PRESENT_VALUE);
    bactool_say(&builder, BACTOOL_FIELD_VALUE, 0);
    bactool_say_real(&builder, value);
    bactool_say(&builder, BACTOOL_FIELD_VALUE_END, 0);
    return print_built("answer", &builder);
}

/* Answers with a text. Its octets are contents, for which the builder has an array of its own. */
static int named(uint32_t instance, const char *name)
{
    struct bactool_field fields[16];
    uint8_t contents[64];
    struct bactool_builder builder = bactool_builder_over(fields, 16, contents, sizeof contents);
    bactool_say_head(&builder, false);
    bactool_say_answer(&builder, 1, BACTOOL_FIELD_READ_PROPERTY);
    bactool_say_object(&builder, BACTOOL_FIELD_OBJECT, BACTOOL_TYPE_ANALOG_INPUT, instance);
    bactool_say(&builder, BACTOOL_FIELD_PROPERTY, BACTOOL_PROPERTY_OBJECT_NAME);
    bactool_say(&builder, BACTOOL_FIELD_VALUE, 0);
    bactool_say_text(&builder, name, strlen(name));
    bactool_say(&builder, BACTOOL_FIELD_VALUE_END, 0);
    return print_built("name", &builder);
}

/* Changes the priority of a WriteProperty that was read. Its other fields, and its octets, stay as they were. */
static int change(const uint8_t *octets, size_t length, uint64_t priority)
{
    static struct bactool_field fields[BACTOOL_MOST_FIELDS(MOST_OCTETS)];
    uint8_t canonical[MOST_OCTETS], out[MOST_OCTETS];
    struct bactool_outcome outcome;
    uint32_t code = bactool_decode(octets, length, canonical, sizeof canonical, fields,
                                   BACTOOL_MOST_FIELDS(MOST_OCTETS), &outcome);
    if (code != BACTOOL_OK)
        return refused("change", code, &outcome);
    for (size_t i = 0; i < outcome.fields; i++)
        if (fields[i].name == BACTOOL_FIELD_PRIORITY)
            fields[i].number = priority;
    code = bactool_encode(fields, outcome.fields, canonical, outcome.count, out, sizeof out, &outcome);
    return code == BACTOOL_OK ? print("change", out, outcome.count) : refused("change", code, &outcome);
}

int main(int count, char **words)
{
    const uint8_t write[] = {0x01, 0x04, 0x00, 0x05, 0x03, 0x0F, 0x0C, 0x00, 0x40, 0x00, 0x01,
                             0x19, 0x55, 0x3E, 0x44, 0x42, 0xC8, 0x00, 0x00, 0x3F, 0x49, 0x08};
    if (count > 1) {
        fprintf(stderr, "fields: unexpected word '%s'\nusage: fields\n", words[1]);
        return 2;
    }
    if (request(5) != 0 || answer(5, 72.3f) != 0 || named(5, "Hello") != 0 || change(write, sizeof write, 9) != 0)
        return 2;
    if (fflush(stdout) != 0) {
        perror("fields: standard output");
        return 2;
    }
    return 0;
}
