/* SPDX-License-Identifier: Apache-2.0 OR MIT */
/*
 * Prints the values of a frame file: a line for each property in an answer to ReadProperty or ReadPropertyMultiple, or
 * in a COV notification, with the number of the record. Other records are passed over.
 *
 *     cc examples/c/values.c $(pkg-config --cflags --libs bactool) -o values
 *     ./values < examples/every-kind.frames
 *
 * After `value` come its elements. Numbers are decimal, an object is TYPE:INSTANCE, and text is in quotes, with \xHH in
 * the place of what would break the line; the others are as `bactool show` has them. A property without a value has
 * `error`.
 *
 * The status is 0 if each record is accepted, 1 if one is refused, and 2 if the input cannot be read or ends within a
 * record, if the output cannot be written, if memory is refused, or if there is a word after the command.
 */
#include <bactool_helpers.h>
#include <float.h>
#include <inttypes.h>
#include <math.h>
#include <stdio.h>
#include <stdlib.h>

enum { ACCEPTED = 0, REFUSED = 1, FAILED = 2, LONGEST = 65535 };

/* Reads the next record: two octets of length, and so many octets. Returns 1 if there is one, 0 at the end of the file,
   and -1 if there is a fault. */
static int read_record(uint8_t *frame, size_t *length)
{
    uint8_t head[2];
    size_t taken = fread(head, 1, sizeof head, stdin);
    if (taken < sizeof head)
        return taken == 0 && !ferror(stdin) ? 0 : -1;
    *length = (size_t)head[0] << 8 | head[1];
    return fread(frame, 1, *length, stdin) == *length ? 1 : -1;
}

static void print_object(uint64_t identifier)
{
    printf("%" PRIu32 ":%" PRIu32, BACTOOL_OBJECT_TYPE(identifier), BACTOOL_OBJECT_INSTANCE(identifier));
}

static void print_hex(const uint8_t *octets, size_t length)
{
    for (size_t k = 0; k < length; k++)
        printf("%02X", octets[k]);
}

/* Prints no more digits than read back as the same number, and no fewer than the type always keeps. */
static void print_float(float value)
{
    char text[32];
    for (int digits = FLT_DIG; digits <= FLT_DECIMAL_DIG; digits++) {
        snprintf(text, sizeof text, "%.*g", digits, value);
        if (strtof(text, NULL) == value)
            break;
    }
    printf("%s", isnan(value) ? "nan" : text);
}

static void print_double(double value)
{
    char text[32];
    for (int digits = DBL_DIG; digits <= DBL_DECIMAL_DIG; digits++) {
        snprintf(text, sizeof text, "%.*g", digits, value);
        if (strtod(text, NULL) == value)
            break;
    }
    printf("%s", isnan(value) ? "nan" : text);
}

/* Prints a text in quotes. It should be UTF-8, which is not checked here. */
static void print_text(const char *text, size_t length)
{
    putchar('"');
    for (size_t k = 0; k < length; k++) {
        unsigned octet = (unsigned char)text[k];
        bool is_plain = octet >= 0x20 && octet != '"' && octet != '\\' && octet != 0x7F;
        printf(is_plain ? "%c" : "\\x%02X", octet);
    }
    putchar('"');
}

static void print_bits(const struct bactool_field *field, const uint8_t *octets)
{
    bool bit = false;
    printf("b:");
    for (uint64_t k = 0; bactool_as_bit(field, octets, k, &bit); k++)
        putchar(bit ? '1' : '0');
}

/* Prints an element that has no number of a machine: its contents. */
static void print_contents(const struct bactool_field *field, const uint8_t *octets)
{
    switch (field->name) {
    case BACTOOL_FIELD_OCTET_STRING: printf("o:"); break;
    case BACTOOL_FIELD_CHARACTER_STRING: printf("s%" PRIu64 ":", field->number); break;
    case BACTOOL_FIELD_DATE: printf("D:"); break;
    case BACTOOL_FIELD_TIME_OF_DAY: printf("T:"); break;
    case BACTOOL_FIELD_CONTEXT_PRIMITIVE: printf("[%" PRIu64 "]", field->number); break;
    }
    print_hex(octets + field->place + field->head, field->length);
}

/* Prints an element of a value, or where a group in it begins or ends. */
static void print_element(const struct bactool_field *field, const uint8_t *octets)
{
    float real;
    double wide;
    int64_t integer;
    const char *text;
    size_t length;
    putchar(' ');
    if (bactool_as_float(field, &real)) {
        print_float(real);
    } else if (bactool_as_double(field, &wide)) {
        print_double(wide);
    } else if (bactool_as_integer(field, &integer)) {
        printf("%" PRId64, integer);
    } else if (bactool_as_text(field, octets, &text, &length)) {
        print_text(text, length);
    } else {
        switch (field->name) {
        case BACTOOL_FIELD_NULL: printf("null"); break;
        case BACTOOL_FIELD_BOOLEAN: printf(field->number == 1 ? "true" : "false"); break;
        case BACTOOL_FIELD_UNSIGNED: printf("%" PRIu64, field->number); break; /* 2^63 or above */
        case BACTOOL_FIELD_BIT_STRING: print_bits(field, octets); break;
        case BACTOOL_FIELD_OBJECT_IDENTIFIER: print_object(field->number); break;
        case BACTOOL_FIELD_GROUP: printf("[%" PRIu64 "]{", field->number); break;
        case BACTOOL_FIELD_GROUP_END: putchar('}'); break;
        default: print_contents(field, octets);
        }
    }
}

/* Prints the word and the number of a field, if there is one. */
static void print_part(const struct bactool_field *field)
{
    char word[32];
    if (field == NULL)
        return;
    printf(" %.*s=", (int)bactool_name(field->name, word, sizeof word), word);
    if (field->name == BACTOOL_FIELD_DEVICE || field->name == BACTOOL_FIELD_OBJECT)
        print_object(field->number);
    else
        printf("%" PRIu64, field->number);
}

static bool has_values(const struct bactool_field *fields, size_t count)
{
    return bactool_find(fields, count, BACTOOL_FIELD_COMPLEX_ACK) != NULL
        || bactool_find(fields, count, BACTOOL_FIELD_CONFIRMED_COV_NOTIFICATION) != NULL
        || bactool_find(fields, count, BACTOOL_FIELD_UNCONFIRMED_COV_NOTIFICATION) != NULL;
}

/* Prints a line for each property with a value or an error. Its object comes first, and its index if there is one. */
static void print_values(unsigned number, const uint8_t *octets, const struct bactool_field *fields, size_t count)
{
    const struct bactool_field *device = bactool_find(fields, count, BACTOOL_FIELD_DEVICE), *element;
    struct bactool_property result = bactool_properties(fields, count);
    while (bactool_next_property(&result)) {
        printf("%u", number);
        print_part(device);
        print_part(result.object);
        print_part(result.property);
        print_part(result.index);
        printf(result.has_value ? " value" : " error");
        print_part(result.error_class);
        print_part(result.error_code);
        while ((element = bactool_next(&result.value)) != NULL)
            print_element(element, octets);
        putchar('\n');
    }
}

/* Prints the values of one record. Returns the status for it. */
static int print_record(unsigned number, const uint8_t *frame, size_t length)
{
    /* There are never more canonical octets than were read. */
    static uint8_t octets[LONGEST];
    static struct bactool_field fields[BACTOOL_MOST_FIELDS(LONGEST)];
    struct bactool_outcome outcome;
    char name[16];
    switch (bactool_decode(frame, length, octets, sizeof octets, fields, BACTOOL_MOST_FIELDS(length), &outcome)) {
    case BACTOOL_OK:
        if (has_values(fields, outcome.fields))
            print_values(number, octets, fields, outcome.fields);
        return ACCEPTED;
    case BACTOOL_REFUSED:
        fprintf(stderr, "values: record %u: refused %.*s at %zu\n", number,
                (int)bactool_reason(outcome.why, name, sizeof name), name, outcome.place);
        return REFUSED;
    default:
        fprintf(stderr, "values: out of memory\n");
        return FAILED;
    }
}

int main(int count, char **words)
{
    if (count > 1) {
        fprintf(stderr, "values: unexpected word '%s'\nusage: values < FILE\n", words[1]);
        return FAILED;
    }
    static uint8_t frame[LONGEST];
    size_t length = 0;
    int status = ACCEPTED, more = 0;
    unsigned number = 1;
    while (status != FAILED && (more = read_record(frame, &length)) > 0) {
        int one = print_record(number++, frame, length);
        if (one > status)
            status = one;
    }
    if (more < 0 && ferror(stdin))
        perror("values: standard input");
    else if (more < 0)
        fprintf(stderr, "values: the file ends within record %u\n", number);
    if (fflush(stdout) != 0 || ferror(stdout)) {
        perror("values: standard output");
        return FAILED;
    }
    return more < 0 ? FAILED : status;
}
