/* SPDX-License-Identifier: Apache-2.0 OR MIT */
/*
 * The library libbactool as a module for Lua 5.2:
 *
 *     local bactool = require "bactool"
 *     print(bactool.show("\1\0\16\8"))
 *
 * prints `prio=0 reply=0 unconf Who-Is`. Each call takes the octets of one NPDU as a string, and returns nil, the name of
 * the reason and the place if they are refused. What it returns otherwise:
 *
 *     check(octets)      "canonical"; or "tolerated" and the first place that differs from the canonical octets
 *     normalise(octets)  the canonical octets
 *     show(octets)       the text of the frame, as `bactool show` prints it
 *     decode(octets)     the fields of the frame, in the order of its text, and the canonical octets
 *     explain(octets)    the pieces of the octets, in their order, also if they are refused
 *
 * A field is a table: `name`, the word that begins it in the text, such as "object"; `code`, the number of that name in
 * enum bactool_field_name; `number`; `place`, `head` and `length`, which are offsets and counts of the canonical octets.
 * A number of Lua 5.2 is exact up to 2^53, so a larger `number` is a string of its decimal digits.
 *
 * A piece is a table: `place`, `length`, `head`, `depth`, `kind`, `tag` and `number` as in struct bactool_piece, and
 * `text`, its words.
 *
 * `version` is the version of the library, such as "0.3.0". An argument that is no string is an error, and so is memory
 * that is refused.
 */
#include <bactool.h>
#include <inttypes.h>
#include <lauxlib.h>
#include <lua.h>
#include <stdio.h>

/* Longer than the text of most frames: a longer one takes a second call. */
enum { USUAL_TEXT = 1024 };

static const uint64_t LARGEST_EXACT = UINT64_C(1) << 53;

/* The one argument. A number is refused, which Lua would take as its digits. */
static const uint8_t *octets_passed(lua_State *lua, size_t *length)
{
    luaL_checktype(lua, 1, LUA_TSTRING);
    return (const uint8_t *)lua_tolstring(lua, 1, length);
}

/* Returns what a call returns of octets that are refused. */
static int refused(lua_State *lua, uint32_t code, const struct bactool_outcome *outcome)
{
    char reason[16];
    if (code != BACTOOL_REFUSED)
        return luaL_error(lua, "out of memory");
    lua_pushnil(lua);
    lua_pushlstring(lua, reason, bactool_reason(outcome->why, reason, sizeof reason));
    lua_pushinteger(lua, (lua_Integer)outcome->place);
    return 3;
}

static int check(lua_State *lua)
{
    struct bactool_outcome outcome;
    size_t length;
    const uint8_t *octets = octets_passed(lua, &length);
    uint32_t code = bactool_check(octets, length, false, &outcome);
    switch (code) {
    case BACTOOL_OK:
        lua_pushliteral(lua, "canonical");
        return 1;
    case BACTOOL_TOLERATED:
        lua_pushliteral(lua, "tolerated");
        lua_pushinteger(lua, (lua_Integer)outcome.place);
        return 2;
    default:
        return refused(lua, code, &outcome);
    }
}

static int normalise(lua_State *lua)
{
    struct bactool_outcome outcome;
    luaL_Buffer canonical;
    size_t length;
    const uint8_t *octets = octets_passed(lua, &length);
    uint8_t *out = (uint8_t *)luaL_buffinitsize(lua, &canonical, length);
    uint32_t code = bactool_normalise(octets, length, out, length, &outcome);
    if (code != BACTOOL_OK)
        return refused(lua, code, &outcome);
    luaL_pushresultsize(&canonical, outcome.count);
    return 1;
}

static int show(lua_State *lua)
{
    struct bactool_outcome outcome;
    luaL_Buffer text;
    size_t length;
    const uint8_t *octets = octets_passed(lua, &length);
    char *out = luaL_buffinitsize(lua, &text, USUAL_TEXT);
    uint32_t code = bactool_show(octets, length, out, USUAL_TEXT, &outcome);
    if (code == BACTOOL_NO_ROOM) {
        size_t room = outcome.count;
        out = luaL_prepbuffsize(&text, room);
        code = bactool_show(octets, length, out, room, &outcome);
    }
    if (code != BACTOOL_OK)
        return refused(lua, code, &outcome);
    luaL_pushresultsize(&text, outcome.count);
    return 1;
}

static void set_integer(lua_State *lua, const char *key, size_t value)
{
    lua_pushinteger(lua, (lua_Integer)value);
    lua_setfield(lua, -2, key);
}

/* Pushes the table of a field. */
static void push_field(lua_State *lua, const struct bactool_field *field)
{
    char word[32];
    char digits[24];
    lua_createtable(lua, 0, 6);
    lua_pushlstring(lua, word, bactool_name(field->name, word, sizeof word));
    lua_setfield(lua, -2, "name");
    if (field->number <= LARGEST_EXACT) {
        lua_pushnumber(lua, (lua_Number)field->number);
    } else {
        snprintf(digits, sizeof digits, "%" PRIu64, field->number);
        lua_pushstring(lua, digits);
    }
    lua_setfield(lua, -2, "number");
    set_integer(lua, "code", field->name);
    set_integer(lua, "place", field->place);
    set_integer(lua, "head", field->head);
    set_integer(lua, "length", field->length);
}

static int decode(lua_State *lua)
{
    struct bactool_outcome outcome;
    luaL_Buffer canonical;
    size_t length;
    const uint8_t *octets = octets_passed(lua, &length);
    size_t most = 2 * length + 2;
    /* Lua frees both rooms, also if an error ends the call. */
    struct bactool_field *fields = lua_newuserdata(lua, most * sizeof *fields);
    uint8_t *out = (uint8_t *)luaL_buffinitsize(lua, &canonical, length);
    uint32_t code = bactool_decode(octets, length, out, length, fields, most, &outcome);
    if (code != BACTOOL_OK)
        return refused(lua, code, &outcome);
    luaL_pushresultsize(&canonical, outcome.count);
    lua_createtable(lua, (int)outcome.fields, 0);
    for (size_t i = 0; i < outcome.fields; i++) {
        push_field(lua, &fields[i]);
        lua_rawseti(lua, -2, (int)(i + 1));
    }
    lua_insert(lua, -2);
    return 2;
}

/* Pushes the words of a piece. */
static void push_words(lua_State *lua, const struct bactool_piece *piece, const uint8_t *octets, size_t length)
{
    struct bactool_outcome outcome;
    luaL_Buffer words;
    char *out = luaL_buffinitsize(lua, &words, USUAL_TEXT);
    uint32_t code = bactool_piece_text(piece, octets, length, out, USUAL_TEXT, &outcome);
    if (code == BACTOOL_NO_ROOM) {
        size_t room = outcome.count;
        out = luaL_prepbuffsize(&words, room);
        code = bactool_piece_text(piece, octets, length, out, room, &outcome);
    }
    if (code != BACTOOL_OK)
        luaL_error(lua, "out of memory");
    luaL_pushresultsize(&words, outcome.count);
}

/* Pushes the table of a piece. */
static void push_piece(lua_State *lua, const struct bactool_piece *piece, const uint8_t *octets, size_t length)
{
    lua_createtable(lua, 0, 8);
    set_integer(lua, "place", piece->place);
    set_integer(lua, "length", piece->length);
    set_integer(lua, "head", piece->head);
    set_integer(lua, "depth", piece->depth);
    set_integer(lua, "kind", piece->kind);
    set_integer(lua, "tag", piece->tag);
    set_integer(lua, "number", piece->number);
    push_words(lua, piece, octets, length);
    lua_setfield(lua, -2, "text");
}

static int explain(lua_State *lua)
{
    struct bactool_outcome outcome;
    size_t length;
    const uint8_t *octets = octets_passed(lua, &length);
    size_t most = length + 1;
    struct bactool_piece *pieces = lua_newuserdata(lua, most * sizeof *pieces);
    if (bactool_explain(octets, length, pieces, most, &outcome) == BACTOOL_NO_MEMORY)
        return luaL_error(lua, "out of memory");
    size_t count = outcome.fields;
    lua_createtable(lua, (int)count, 0);
    for (size_t i = 0; i < count; i++) {
        push_piece(lua, &pieces[i], octets, length);
        lua_rawseti(lua, -2, (int)(i + 1));
    }
    return 1;
}

static const luaL_Reg calls[] = {
    {"check", check}, {"normalise", normalise}, {"show", show}, {"decode", decode}, {"explain", explain}, {NULL, NULL},
};

LUAMOD_API int luaopen_bactool(lua_State *lua)
{
    int version = (int)bactool_version();
    luaL_newlib(lua, calls);
    lua_pushfstring(lua, "%d.%d.%d", version / 10000, version / 100 % 100, version % 100);
    lua_setfield(lua, -2, "version");
    return 1;
}
