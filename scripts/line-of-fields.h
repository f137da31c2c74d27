/* SPDX-License-Identifier: Apache-2.0 OR MIT */
/*
 * The line of `bactool show`, made of the fields of a frame and its canonical octets alone, by section 8 of
 * docs/FORMATS.md. scripts/try-library.c holds it against the line of the library: so the fields say all that the line
 * says.
 */
#include <bactool.h>
#include <inttypes.h>
#include <stdio.h>
#include <string.h>

/* How the line has a field. WORD is its word. */
enum form {
    NO_FIELD,
    ALONE,      /* WORD */
    NUMBER,     /* WORD=N */
    PLAIN,      /* N */
    ADDRESS,    /* WORD=N/HEX, with a star in the place of no octets */
    OBJECT,     /* WORD=TYPE:INSTANCE */
    OCTETS,     /* WORD=HEX */
    MESSAGE,    /* WORD type=TT */
    LIST,       /* WORD=( */
    ITEM,       /* ( */
    ROUND_END,  /* ) */
    VALUE,      /* WORD={ */
    CURLY_END,  /* } */
    GROUP,      /* [N]{ */
    BOOLEAN,    /* false or true */
    UNSIGNED,   /* WORD:N */
    SIGNED,     /* WORD:N, with - if it is negative */
    BITS_32,    /* WORD: and 8 digits */
    BITS_64,    /* WORD: and 16 digits */
    HEX,        /* WORD:HEX */
    TEXT_VALUE, /* WORD:"TEXT", or WORD, the number of the set, and :HEX */
    DIGITS,     /* WORD: and a digit for each bit */
    IDENTIFIER, /* WORD:TYPE:INSTANCE */
    CONTEXT     /* [N]HEX */
};

enum { NAMES = 144 };

/* The table of section 8.4, by number. A number between two names has no word. */
static const struct {
    const char *word;
    enum form form;
} named[NAMES] = {
    [1] = {"prio", NUMBER}, [2] = {"reply", NUMBER}, [3] = {"dest", ADDRESS}, [4] = {"hops", NUMBER},
    [5] = {"src", ADDRESS},
    [10] = {"conf", ALONE}, [11] = {"unconf", ALONE}, [12] = {"simple", ALONE}, [13] = {"ack", ALONE},
    [14] = {"segack", ALONE}, [15] = {"error", ALONE}, [16] = {"reject", ALONE}, [17] = {"abort", ALONE},
    [18] = {"conf-seg", ALONE}, [19] = {"ack-seg", ALONE},
    [20] = {"id", NUMBER}, [21] = {"sa", NUMBER}, [22] = {"segs", NUMBER}, [23] = {"resp", NUMBER},
    [24] = {"seq", NUMBER}, [25] = {"win", NUMBER}, [26] = {"more", NUMBER}, [27] = {"nak", NUMBER},
    [28] = {"srv", NUMBER}, [29] = {"reason", NUMBER}, [30] = {"choice", NUMBER}, [31] = {"octets", OCTETS},
    [40] = {"net", MESSAGE}, [41] = {"network", NUMBER}, [42] = {"networks", LIST}, [43] = {"network", PLAIN},
    [44] = {"performance", NUMBER}, [45] = {"ports", LIST}, [46] = {"id", NUMBER}, [47] = {"info", OCTETS},
    [48] = {"time", NUMBER}, [49] = {"flag", NUMBER}, [50] = {"vendor", NUMBER}, [51] = {"data", OCTETS},
    [60] = {"ReadProperty", ALONE}, [61] = {"ReadPropertyMultiple", ALONE}, [62] = {"WriteProperty", ALONE},
    [63] = {"WritePropertyMultiple", ALONE}, [64] = {"Who-Is", ALONE}, [65] = {"I-Am", ALONE},
    [66] = {"SubscribeCOV", ALONE}, [67] = {"ConfirmedCOVNotification", ALONE},
    [68] = {"UnconfirmedCOVNotification", ALONE}, [69] = {"opaque", ALONE},
    [80] = {"object", OBJECT}, [81] = {"property", NUMBER}, [82] = {"index", NUMBER}, [83] = {"priority", NUMBER},
    [84] = {"process", NUMBER}, [85] = {"device", OBJECT}, [86] = {"confirmed", NUMBER}, [87] = {"lifetime", NUMBER},
    [88] = {"remaining", NUMBER}, [89] = {"low", NUMBER}, [90] = {"high", NUMBER}, [91] = {"apdu", NUMBER},
    [92] = {"segmentation", NUMBER}, [93] = {"class", NUMBER}, [94] = {"code", NUMBER},
    [110] = {"specs", LIST}, [111] = {"properties", LIST}, [112] = {"results", LIST}, [113] = {"values", LIST},
    [114] = {"end", ROUND_END}, [115] = {"item", ITEM}, [116] = {"end", ROUND_END}, [117] = {"value", VALUE},
    [118] = {"end", CURLY_END}, [119] = {"error", LIST}, [120] = {"end", ROUND_END}, [121] = {"group", GROUP},
    [122] = {"end", CURLY_END},
    [130] = {"null", ALONE}, [131] = {"boolean", BOOLEAN}, [132] = {"u", UNSIGNED}, [133] = {"i", SIGNED},
    [134] = {"r", BITS_32}, [135] = {"d", BITS_64}, [136] = {"o", HEX}, [137] = {"s", TEXT_VALUE},
    [138] = {"b", DIGITS}, [139] = {"e", UNSIGNED}, [140] = {"D", HEX}, [141] = {"T", HEX}, [142] = {"id", IDENTIFIER},
    [143] = {"context", CONTEXT},
};

/* How many octets a character of UTF-8 has that begins here, of `left` octets; 0 if none begins here. */
static size_t character_at(const uint8_t *octets, size_t left)
{
    uint8_t first = octets[0];
    size_t count = first < 0x80 ? 1 : first < 0xC2 ? 0 : first < 0xE0 ? 2 : first < 0xF0 ? 3 : first < 0xF5 ? 4 : 0;
    if (count == 0 || count > left)
        return 0;
    for (size_t k = 1; k < count; k++)
        if ((octets[k] & 0xC0) != 0x80)
            return 0;
    /* what would be spelled by fewer octets, a half of a pair, or more than 10FFFF */
    bool is_none = (first == 0xE0 && octets[1] < 0xA0) || (first == 0xED && octets[1] >= 0xA0)
                || (first == 0xF0 && octets[1] < 0x90) || (first == 0xF4 && octets[1] >= 0x90);
    return is_none ? 0 : count;
}

/* Whether the line has the octets of a string as text. */
static bool is_text(const uint8_t *octets, size_t length)
{
    for (size_t at = 0, step; at < length; at += step) {
        if (octets[at] < 0x20 || octets[at] == '"' || octets[at] == '\\' || octets[at] == 0x7F)
            return false;
        if ((step = character_at(octets + at, length - at)) == 0)
            return false;
    }
    return true;
}

static char *put_hex(char *out, const uint8_t *octets, size_t length)
{
    for (size_t k = 0; k < length; k++) {
        *out++ = "0123456789ABCDEF"[octets[k] >> 4];
        *out++ = "0123456789ABCDEF"[octets[k] & 15];
    }
    return out;
}

static char *put_text(char *out, const char *word, uint64_t set, const uint8_t *octets, size_t length)
{
    out += sprintf(out, set == 0 && is_text(octets, length) ? "%s:\"" : "%s%" PRIu64 ":", word, set);
    if (out[-1] == ':')
        return put_hex(out, octets, length);
    memcpy(out, octets, length);
    out[length] = '"';
    return out + length + 1;
}

static char *put_field(char *out, const struct bactool_field *field, const uint8_t *contents)
{
    const char *word = named[field->name].word;
    uint64_t number = field->number, type = number >> 22, instance = number & 0x3FFFFF;
    switch (named[field->name].form) {
    case ALONE:
        return out + sprintf(out, "%s", word);
    case NUMBER:
        return out + sprintf(out, "%s=%" PRIu64, word, number);
    case PLAIN:
        return out + sprintf(out, "%" PRIu64, number);
    case ADDRESS:
        out += sprintf(out, "%s=%" PRIu64 "/%s", word, number, field->length == 0 ? "*" : "");
        return put_hex(out, contents, field->length);
    case OBJECT:
        return out + sprintf(out, "%s=%" PRIu64 ":%" PRIu64, word, type, instance);
    case OCTETS:
        return put_hex(out + sprintf(out, "%s=", word), contents, field->length);
    case MESSAGE:
        return out + sprintf(out, "%s type=%02" PRIX64, word, number);
    case LIST:
        return out + sprintf(out, "%s=(", word);
    case ITEM:
        return out + sprintf(out, "(");
    case ROUND_END:
        return out + sprintf(out, ")");
    case VALUE:
        return out + sprintf(out, "%s={", word);
    case CURLY_END:
        return out + sprintf(out, "}");
    case GROUP:
        return out + sprintf(out, "[%" PRIu64 "]{", number);
    case BOOLEAN:
        return out + sprintf(out, "%s", number == 1 ? "true" : number == 0 ? "false" : "?");
    case UNSIGNED:
        return out + sprintf(out, "%s:%" PRIu64, word, number);
    case SIGNED:
        return out + sprintf(out, "%s:%" PRId64, word, (int64_t)number);
    case BITS_32:
        return out + sprintf(out, "%s:%08" PRIX64, word, number);
    case BITS_64:
        return out + sprintf(out, "%s:%016" PRIX64, word, number);
    case HEX:
        return put_hex(out + sprintf(out, "%s:", word), contents, field->length);
    case TEXT_VALUE:
        return put_text(out, word, number, contents, field->length);
    case DIGITS:
        out += sprintf(out, "%s:", word);
        for (uint64_t k = 0; k < number && k / 8 < field->length; k++)
            *out++ = contents[k / 8] >> (7 - k % 8) & 1 ? '1' : '0';
        return out;
    case IDENTIFIER:
        return out + sprintf(out, "%s:%" PRIu64 ":%" PRIu64, word, type, instance);
    case CONTEXT:
        return put_hex(out + sprintf(out, "[%" PRIu64 "]", number), contents, field->length);
    default:
        return out + sprintf(out, "?");
    }
}

/* Writes the line of a frame, and returns its length. Each field has a name, and its octets are among the octets. */
static size_t line_of_fields(const uint8_t *octets, const struct bactool_field *fields, size_t count, char *line)
{
    char *out = line;
    for (size_t k = 0; k < count; k++) {
        enum form form = named[fields[k].name].form;
        bool is_first = out == line || out[-1] == '(' || out[-1] == '{';
        if (!is_first && form != ROUND_END && form != CURLY_END)
            *out++ = ' ';
        out = put_field(out, &fields[k], octets + fields[k].place + fields[k].head);
    }
    return (size_t)(out - line);
}
