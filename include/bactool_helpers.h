/* SPDX-License-Identifier: Apache-2.0 OR MIT */
/*
 * bactool_helpers.h: fields of frames, made and read with less writing, for C and C++.
 *
 * bactool_encode writes the frame of an array of fields, and bactool_decode writes the fields of a frame into an array.
 * Here is what a program puts around these two calls. A builder fills an array with the fields of a frame. A cursor
 * passes over the fields that were decoded, item by item or property by property. Conversions make a float, an integer
 * or a text of an element of a value.
 *
 * All of it is inline. It allocates nothing, keeps everything in arrays and structs of the caller, and ends in time
 * proportional to the number of fields. No pointer may be NULL, unless its comment says so.
 */
#ifndef BACTOOL_HELPERS_H
#define BACTOOL_HELPERS_H

#include "bactool.h"
#include <string.h>

#ifdef __cplusplus
extern "C" {
#endif

/* ---- A builder: the fields of a frame to be written -------------------------------------------------------------- */

/*
 * A builder over two arrays of the caller: one for fields, one for the octets of their contents. A request for a
 * property:
 *
 *     struct bactool_field fields[16];
 *     struct bactool_builder builder = bactool_builder_over(fields, 16, NULL, 0);
 *     bactool_say_head(&builder, true);
 *     bactool_say_request(&builder, 1, BACTOOL_FIELD_READ_PROPERTY);
 *     bactool_say_object(&builder, BACTOOL_FIELD_OBJECT, BACTOOL_TYPE_ANALOG_INPUT, 5);
 *     bactool_say(&builder, BACTOOL_FIELD_PROPERTY, BACTOOL_PROPERTY_PRESENT_VALUE);
 *     if (bactool_builder_encode(&builder, out, sizeof out, &outcome) == BACTOOL_OK)
 *         send(socket, out, outcome.count, 0);
 *
 * A builder checks only its capacity. bactool_encode checks whether the fields are those of a frame. If a field or its
 * contents do not fit, the builder is full and stays so, and it has no fields any more. So part of a frame is never
 * taken for the whole of it: bactool_encode refuses a list without fields as BACTOOL_SHORT at 0.
 */
struct bactool_builder {
    struct bactool_field *fields; /* the fields so far */
    size_t most;                  /* how many fields fit */
    size_t count;                 /* how many there are */
    uint8_t *octets;              /* the octets of their contents, one after another */
    size_t room;                  /* how many octets fit */
    size_t length;                /* how many there are */
    bool is_full;                 /* whether something did not fit */
};

/* Returns a builder without fields. `octets` may be NULL if `room` is 0: for frames whose fields have no contents. */
static inline struct bactool_builder bactool_builder_over(struct bactool_field *fields, size_t most, uint8_t *octets,
                                                          size_t room)
{
    struct bactool_builder builder = {fields, most, 0, octets, room, 0, false};
    return builder;
}

/* True if a field, or its contents, did not fit. */
static inline bool bactool_builder_full(const struct bactool_builder *builder)
{
    return builder->is_full;
}

/* Writes the canonical octets of the frame, as bactool_encode does: `place` is the index of a field. */
static inline uint32_t bactool_builder_encode(const struct bactool_builder *builder, uint8_t *out, size_t room,
                                              struct bactool_outcome *outcome)
{
    return bactool_encode(builder->fields, builder->count, builder->octets, builder->length, out, room, outcome);
}

/* Adds a field of any name: what the functions after it have in common. */
static inline void bactool_say_any(struct bactool_builder *builder, uint32_t name, uint64_t number, const void *octets,
                                   size_t length)
{
    if (builder->is_full || builder->count == builder->most || length > builder->room - builder->length) {
        builder->is_full = true;
        builder->count = 0;
        return;
    }
    struct bactool_field *field = &builder->fields[builder->count++];
    field->name = name;
    field->number = number;
    field->place = builder->length;
    field->head = 0;
    field->length = length;
    if (length > 0)
        memcpy(builder->octets + builder->length, octets, length);
    builder->length += length;
}

/* Adds a field without contents. A name that says all by itself, such as VALUE, has number 0. */
static inline void bactool_say(struct bactool_builder *builder, enum bactool_field_name name, uint64_t number)
{
    bactool_say_any(builder, BACTOOL_CAST(uint32_t, name), number, NULL, 0);
}

/* Adds a field with contents, which are copied. The names with contents are listed at enum bactool_field_name. `octets`
   may be NULL if `length` is 0, and must not overlap the arrays of the builder. */
static inline void bactool_say_octets(struct bactool_builder *builder, enum bactool_field_name name, uint64_t number,
                                      const void *octets, size_t length)
{
    bactool_say_any(builder, BACTOOL_CAST(uint32_t, name), number, octets, length);
}

/* True for the names with contents. */
static inline bool bactool_has_contents(uint32_t name)
{
    switch (name) {
    case BACTOOL_FIELD_DESTINATION:
    case BACTOOL_FIELD_SOURCE:
    case BACTOOL_FIELD_OCTETS:
    case BACTOOL_FIELD_PORT_INFO:
    case BACTOOL_FIELD_DATA:
    case BACTOOL_FIELD_OCTET_STRING:
    case BACTOOL_FIELD_CHARACTER_STRING:
    case BACTOOL_FIELD_BIT_STRING:
    case BACTOOL_FIELD_DATE:
    case BACTOOL_FIELD_TIME_OF_DAY:
    case BACTOOL_FIELD_CONTEXT_PRIMITIVE:
        return true;
    default:
        return false;
    }
}

/* Adds a field that was decoded, and copies its contents. `octets` are those that bactool_decode wrote. */
static inline void bactool_say_field(struct bactool_builder *builder, const struct bactool_field *field,
                                     const uint8_t *octets)
{
    size_t length = bactool_has_contents(field->name) ? field->length : 0;
    bactool_say_any(builder, field->name, field->number, length > 0 ? octets + field->place + field->head : NULL,
                    length);
}

/* Adds an OBJECT, a DEVICE or an OBJECT_IDENTIFIER. If the type is above 1023 or the instance above 4194303,
   bactool_encode refuses the field as BACTOOL_BAD_NUMBER. */
static inline void bactool_say_object(struct bactool_builder *builder, enum bactool_field_name name, uint32_t type,
                                      uint32_t instance)
{
    bool is_object = type <= 0x3FF && instance <= 0x3FFFFF;
    bactool_say(builder, name, is_object ? BACTOOL_OBJECT(type, instance) : UINT64_MAX);
}

/* Adds a Real as an element of a value. */
static inline void bactool_say_real(struct bactool_builder *builder, float value)
{
    uint32_t bits = 0;
    memcpy(&bits, &value, sizeof bits);
    bactool_say(builder, BACTOOL_FIELD_REAL, bits);
}

/* Adds a Double as an element of a value. */
static inline void bactool_say_double(struct bactool_builder *builder, double value)
{
    uint64_t bits = 0;
    memcpy(&bits, &value, sizeof bits);
    bactool_say(builder, BACTOOL_FIELD_DOUBLE, bits);
}

/* Adds a Signed Integer as an element of a value. (An Unsigned Integer and an Enumerated are bactool_say with their
   number.) */
static inline void bactool_say_signed(struct bactool_builder *builder, int64_t value)
{
    bactool_say(builder, BACTOOL_FIELD_SIGNED, BACTOOL_CAST(uint64_t, value));
}

/* Adds a Character String in UTF-8 (character set 0) as an element of a value. */
static inline void bactool_say_text(struct bactool_builder *builder, const char *text, size_t length)
{
    bactool_say_octets(builder, BACTOOL_FIELD_CHARACTER_STRING, 0, text, length);
}

/* Adds the head of a frame, 2 fields: normal priority, and whether a reply is expected. */
static inline void bactool_say_head(struct bactool_builder *builder, bool is_reply_expected)
{
    bactool_say(builder, BACTOOL_FIELD_NETWORK_PRIORITY, 0);
    bactool_say(builder, BACTOOL_FIELD_REPLY_EXPECTED, is_reply_expected ? 1 : 0);
}

/* Adds the destination on another network, 2 fields. They come after those of bactool_say_head. An address of no octets
   is that of every device on the network. The hop count is 255, as a sender has it (clause 6.2.2). */
static inline void bactool_say_destination(struct bactool_builder *builder, uint64_t network, const uint8_t *address,
                                           size_t length)
{
    bactool_say_octets(builder, BACTOOL_FIELD_DESTINATION, network, address, length);
    bactool_say(builder, BACTOOL_FIELD_HOP_COUNT, 255);
}

/* Returns the service choice of a service that has a name: the number of its field. */
static inline uint8_t bactool_choice_of(enum bactool_field_name service)
{
    switch (BACTOOL_CAST(uint32_t, service)) {
    case BACTOOL_FIELD_READ_PROPERTY: return 12;
    case BACTOOL_FIELD_READ_PROPERTY_MULTIPLE: return 14;
    case BACTOOL_FIELD_WRITE_PROPERTY: return 15;
    case BACTOOL_FIELD_WRITE_PROPERTY_MULTIPLE: return 16;
    case BACTOOL_FIELD_WHO_IS: return 8;
    case BACTOOL_FIELD_I_AM: return 0;
    case BACTOOL_FIELD_SUBSCRIBE_COV: return 5;
    case BACTOOL_FIELD_CONFIRMED_COV_NOTIFICATION: return 1;
    case BACTOOL_FIELD_UNCONFIRMED_COV_NOTIFICATION: return 2;
    default: return 0;
    }
}

/* Adds the name of a service, 1 field. OPAQUE is one too: its choice and its octets are the fields CHOICE and OCTETS,
   which come next. */
static inline void bactool_say_service(struct bactool_builder *builder, enum bactool_field_name service)
{
    bactool_say(builder, service, bactool_choice_of(service));
}

/* Adds the head of a confirmed request, 6 fields with its service. It accepts an answer of up to 1,476 octets that is
   not segmented. */
static inline void bactool_say_request(struct bactool_builder *builder, uint8_t invoke_id,
                                       enum bactool_field_name service)
{
    bactool_say(builder, BACTOOL_FIELD_CONFIRMED_REQUEST, 0);
    bactool_say(builder, BACTOOL_FIELD_INVOKE_ID, invoke_id);
    bactool_say(builder, BACTOOL_FIELD_SEGMENTED_ACCEPTED, 0);
    bactool_say(builder, BACTOOL_FIELD_MAX_SEGMENTS, 0);
    bactool_say(builder, BACTOOL_FIELD_MAX_RESPONSE, 5);
    bactool_say_service(builder, service);
}

/* Adds the head of an unconfirmed request, 2 fields with its service. */
static inline void bactool_say_unconfirmed(struct bactool_builder *builder, enum bactool_field_name service)
{
    bactool_say(builder, BACTOOL_FIELD_UNCONFIRMED_REQUEST, 0);
    bactool_say_service(builder, service);
}

/* Adds the head of an answer with contents (ComplexACK), 3 fields with its service. */
static inline void bactool_say_answer(struct bactool_builder *builder, uint8_t invoke_id,
                                      enum bactool_field_name service)
{
    bactool_say(builder, BACTOOL_FIELD_COMPLEX_ACK, 0);
    bactool_say(builder, BACTOOL_FIELD_INVOKE_ID, invoke_id);
    bactool_say_service(builder, service);
}

/* Adds an answer without contents (SimpleACK), 3 fields. `choice` is that of the request's service. */
static inline void bactool_say_simple_ack(struct bactool_builder *builder, uint8_t invoke_id, uint8_t choice)
{
    bactool_say(builder, BACTOOL_FIELD_SIMPLE_ACK, 0);
    bactool_say(builder, BACTOOL_FIELD_INVOKE_ID, invoke_id);
    bactool_say(builder, BACTOOL_FIELD_CHOICE, choice);
}

/* Adds an Error, 5 fields. The choice is one of those with such an error: 1, 5, 12, 14, 15, or 16 with a reference to a
   property after it. */
static inline void bactool_say_error(struct bactool_builder *builder, uint8_t invoke_id, uint8_t choice,
                                     uint32_t error_class, uint32_t error_code)
{
    bactool_say(builder, BACTOOL_FIELD_ERROR, 0);
    bactool_say(builder, BACTOOL_FIELD_INVOKE_ID, invoke_id);
    bactool_say(builder, BACTOOL_FIELD_CHOICE, choice);
    bactool_say(builder, BACTOOL_FIELD_ERROR_CLASS, error_class);
    bactool_say(builder, BACTOOL_FIELD_ERROR_CODE, error_code);
}

/* Adds a Reject, 3 fields. */
static inline void bactool_say_reject(struct bactool_builder *builder, uint8_t invoke_id, uint8_t reason)
{
    bactool_say(builder, BACTOOL_FIELD_REJECT, 0);
    bactool_say(builder, BACTOOL_FIELD_INVOKE_ID, invoke_id);
    bactool_say(builder, BACTOOL_FIELD_REASON, reason);
}

/* Adds an Abort, 4 fields. */
static inline void bactool_say_abort(struct bactool_builder *builder, uint8_t invoke_id, bool is_by_server,
                                     uint8_t reason)
{
    bactool_say(builder, BACTOOL_FIELD_ABORT, 0);
    bactool_say(builder, BACTOOL_FIELD_INVOKE_ID, invoke_id);
    bactool_say(builder, BACTOOL_FIELD_SERVER, is_by_server ? 1 : 0);
    bactool_say(builder, BACTOOL_FIELD_REASON, reason);
}

/* ---- A cursor: the fields of a frame that was decoded ------------------------------------------------------------ */

/* The fields that are not passed yet: of a whole frame, or of what is inside a list, an item, a value or a group. */
struct bactool_cursor {
    const struct bactool_field *fields;
    size_t count;
};

static inline struct bactool_cursor bactool_cursor_over(const struct bactool_field *fields, size_t count)
{
    struct bactool_cursor cursor = {fields, count};
    return cursor;
}

/* Passes one field. Returns it, or NULL if there is none. */
static inline const struct bactool_field *bactool_next(struct bactool_cursor *cursor)
{
    if (cursor->count == 0)
        return NULL;
    cursor->count--;
    return cursor->fields++;
}

/* True if a list, an item, a value, an error or a group begins with a field of this name. */
static inline bool bactool_is_opening(uint32_t name)
{
    switch (name) {
    case BACTOOL_FIELD_NETWORKS:
    case BACTOOL_FIELD_PORTS:
    case BACTOOL_FIELD_SPECIFICATIONS:
    case BACTOOL_FIELD_PROPERTIES:
    case BACTOOL_FIELD_RESULTS:
    case BACTOOL_FIELD_VALUES:
    case BACTOOL_FIELD_ITEM:
    case BACTOOL_FIELD_VALUE:
    case BACTOOL_FIELD_PROPERTY_ERROR:
    case BACTOOL_FIELD_GROUP:
        return true;
    default:
        return false;
    }
}

/* True if one of them ends with it. */
static inline bool bactool_is_closing(uint32_t name)
{
    switch (name) {
    case BACTOOL_FIELD_LIST_END:
    case BACTOOL_FIELD_ITEM_END:
    case BACTOOL_FIELD_VALUE_END:
    case BACTOOL_FIELD_PROPERTY_ERROR_END:
    case BACTOOL_FIELD_GROUP_END:
        return true;
    default:
        return false;
    }
}

/*
 * Passes one part: a field, and if something begins with it, all up to its end. Returns the first field of the part, or
 * NULL if there is none. `inside` is what is between the first and the last field: nothing if the part is one field.
 *
 * Each element of a value is a part. A group is one too, and its elements are inside.
 */
static inline const struct bactool_field *bactool_next_part(struct bactool_cursor *cursor,
                                                            struct bactool_cursor *inside)
{
    const struct bactool_field *first = bactool_next(cursor), *field = NULL;
    *inside = bactool_cursor_over(cursor->fields, 0);
    size_t depth = first != NULL && bactool_is_opening(first->name) ? 1 : 0;
    while (depth > 0 && (field = bactool_next(cursor)) != NULL) {
        if (bactool_is_opening(field->name))
            depth++;
        else if (bactool_is_closing(field->name))
            depth--;
        if (depth > 0)
            inside->count++;
    }
    return first;
}

/* Finds the first list with this name: NETWORKS, PORTS, SPECIFICATIONS, PROPERTIES, RESULTS or VALUES. Returns true if
   there is one; then `list` is what is inside. The cursor stays where it is. */
static inline bool bactool_find_list(const struct bactool_cursor *cursor, enum bactool_field_name name,
                                     struct bactool_cursor *list)
{
    const struct bactool_field *first = bactool_find(cursor->fields, cursor->count, name);
    if (first == NULL)
        return false;
    size_t passed = BACTOOL_CAST(size_t, first - cursor->fields);
    struct bactool_cursor rest = bactool_cursor_over(first, cursor->count - passed);
    bactool_next_part(&rest, list);
    return true;
}

/* Passes the next item of a list. Returns true if there is one; then `item` is what is inside. There bactool_find finds
   its fields, and bactool_find_list its lists. (The networks of a NETWORKS list are no items: each is one field.) */
static inline bool bactool_next_item(struct bactool_cursor *list, struct bactool_cursor *item)
{
    for (;;) {
        const struct bactool_field *first = bactool_next_part(list, item);
        if (first == NULL)
            return false;
        if (first->name == BACTOOL_FIELD_ITEM)
            return true;
    }
}

/*
 * What a frame has on one property. A member that the frame does not have is NULL. The error is why there is no value,
 * or why the property was not written.
 */
struct bactool_property {
    const struct bactool_field *object;
    const struct bactool_field *property;
    const struct bactool_field *index;
    const struct bactool_field *priority;
    const struct bactool_field *error_class;
    const struct bactool_field *error_code;
    bool has_value;
    struct bactool_cursor value; /* the elements of the value, if there is one. An empty value has none */
    struct bactool_cursor rest;  /* the fields of the frame that are not passed yet */
};

/*
 * Returns where to begin with the properties of a frame. It has no property yet: bactool_next_property passes the first
 * one.
 *
 *     struct bactool_property result = bactool_properties(fields, outcome.fields);
 *     while (bactool_next_property(&result)) {
 *         float value;
 *         if (bactool_as_float(result.value.fields, &value))
 *             printf("object %" PRIu32 ":%" PRIu32 ", property %" PRIu64 ": %g\n",
 *                    BACTOOL_OBJECT_TYPE(result.object->number), BACTOOL_OBJECT_INSTANCE(result.object->number),
 *                    result.property->number, value);
 *     }
 */
static inline struct bactool_property bactool_properties(const struct bactool_field *fields, size_t count)
{
    struct bactool_property found = {NULL, NULL, NULL, NULL, NULL, NULL, false, {NULL, 0}, {NULL, 0}};
    found.rest = bactool_cursor_over(fields, count);
    return found;
}

/* Keeps a field that is about the property: a part of bactool_next_property. */
static inline void bactool_keep(struct bactool_property *found, const struct bactool_field *field)
{
    switch (field->name) {
    case BACTOOL_FIELD_OBJECT: found->object = field; break;
    case BACTOOL_FIELD_PROPERTY: found->property = field; break;
    case BACTOOL_FIELD_INDEX: found->index = field; break;
    case BACTOOL_FIELD_PRIORITY: found->priority = field; break;
    case BACTOOL_FIELD_ERROR_CLASS: found->error_class = field; break;
    case BACTOOL_FIELD_ERROR_CODE: found->error_code = field; break;
    default: break;
    }
}

/*
 * Passes the next property that the frame names. Returns true if there is one. It works for each service that names
 * properties: the result of a ReadProperty, each result of a ReadPropertyMultiple or of a COV notification, each
 * property that is asked for or written. `object` is the object before it. An object without properties is passed over.
 */
static inline bool bactool_next_property(struct bactool_property *found)
{
    const struct bactool_field *object = found->object;
    *found = bactool_properties(found->rest.fields, found->rest.count);
    found->object = object;
    while (found->rest.count > 0) {
        uint32_t name = found->rest.fields->name;
        if (found->property != NULL && (name == BACTOOL_FIELD_PROPERTY || name == BACTOOL_FIELD_ITEM_END))
            break;
        if (name == BACTOOL_FIELD_VALUE) {
            found->has_value = true;
            bactool_next_part(&found->rest, &found->value);
        } else {
            bactool_keep(found, bactool_next(&found->rest));
        }
    }
    return found->property != NULL;
}

/* ---- Conversions: what an element of a value is ------------------------------------------------------------------ */

/*
 * Each of these returns true if the field is such an element, and writes what it is. Else it returns false and writes
 * nothing. The field may be NULL, which is no element. `octets` are those that bactool_decode wrote.
 */

/* A Real. */
static inline bool bactool_as_float(const struct bactool_field *field, float *value)
{
    if (field == NULL || field->name != BACTOOL_FIELD_REAL)
        return false;
    uint32_t bits = BACTOOL_CAST(uint32_t, field->number);
    memcpy(value, &bits, sizeof bits);
    return true;
}

/* A Double, or a Real, which a double has exactly. */
static inline bool bactool_as_double(const struct bactool_field *field, double *value)
{
    float real = 0;
    if (bactool_as_float(field, &real)) {
        *value = BACTOOL_CAST(double, real);
        return true;
    }
    if (field == NULL || field->name != BACTOOL_FIELD_DOUBLE)
        return false;
    memcpy(value, &field->number, sizeof *value);
    return true;
}

/* An Unsigned Integer below 2^63, a Signed Integer or an Enumerated. */
static inline bool bactool_as_integer(const struct bactool_field *field, int64_t *value)
{
    if (field == NULL)
        return false;
    bool is_unsigned = field->name == BACTOOL_FIELD_UNSIGNED || field->name == BACTOOL_FIELD_ENUMERATED;
    if (field->name != BACTOOL_FIELD_SIGNED && !(is_unsigned && field->number <= INT64_MAX))
        return false;
    memcpy(value, &field->number, sizeof *value);
    return true;
}

/* A Character String in UTF-8 (character set 0). The text is in the octets and has no NUL at its end. That it is UTF-8
   is not checked. */
static inline bool bactool_as_text(const struct bactool_field *field, const uint8_t *octets, const char **text,
                                   size_t *length)
{
    if (field == NULL || field->name != BACTOOL_FIELD_CHARACTER_STRING || field->number != 0)
        return false;
    const void *first = octets + field->place + field->head;
    *text = BACTOOL_CAST(const char *, first);
    *length = field->length;
    return true;
}

/* Bit `k` of a Bit String, counted from 0. A Bit String has as many bits as its number. */
static inline bool bactool_as_bit(const struct bactool_field *field, const uint8_t *octets, uint64_t k, bool *bit)
{
    if (field == NULL || field->name != BACTOOL_FIELD_BIT_STRING || k >= field->number)
        return false;
    uint8_t octet = octets[field->place + field->head + BACTOOL_CAST(size_t, k / 8)];
    *bit = (octet >> (7 - k % 8) & 1) != 0;
    return true;
}

#ifdef __cplusplus
}
#endif

#endif
