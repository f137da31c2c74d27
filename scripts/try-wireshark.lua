-- SPDX-License-Identifier: Apache-2.0 OR MIT
-- Tries the module wireshark/out/bactool.so with what scripts/try-wireshark.py made in FOLDER. Of the frame file there it
-- writes, into the same folder, what `bactool check`, `bactool show` and `bactool normalise` write of it, the last one
-- without the refused records. The pieces of each record must cover it. It compares the fields of the frames in `fields`.
-- Then come large numbers, refusals, and arguments that are errors. The status is 0 if all went well.
--   LUA_CPATH='wireshark/out/?.so' lua5.2 scripts/try-wireshark.lua FOLDER

local bactool = require "bactool"

local folder = arg[1]
local faults = 0

local function fault(...)
    print("try-wireshark: " .. string.format(...))
    faults = faults + 1
end

local function octets_of(digits)
    return (digits:gsub("%s", ""):gsub("%x%x", function(pair) return string.char(tonumber(pair, 16)) end))
end

-- The octets of each record of a frame file.
local function records_of(path)
    local file = assert(io.open(path, "rb"))
    local rest, records = file:read("*a"), {}
    file:close()
    while rest ~= "" do
        local last = 2 + rest:byte(1) * 256 + rest:byte(2)
        records[#records + 1] = rest:sub(3, last)
        rest = rest:sub(last + 1)
    end
    return records
end

local function open(name)
    return assert(io.open(folder .. "/" .. name, "wb"))
end

-- The kinds of pieces at the place of a refusal and after it, and the tag that begins a group.
local REFUSED, REST, OPENING = 35, 36, 3

-- The pieces of a record are its octets, and one is at the place where it is refused.
local function compare_pieces(number, octets)
    local _, _, place = bactool.show(octets)
    local pieces, last = bactool.explain(octets), 0
    local arrow
    for _, piece in ipairs(pieces) do
        if piece.place ~= last or piece.head > piece.length or type(piece.text) ~= "string" or piece.text == "" then
            fault("record %d has no such piece at %d", number, piece.place)
        end
        last = piece.place + piece.length
        arrow = piece.kind == REFUSED and piece.place or arrow
    end
    local first = pieces[1]
    if last ~= #octets or arrow ~= place or not first or first.depth ~= 0 then
        fault("the pieces of record %d end at %d, and it is refused at %s", number, last, tostring(arrow))
    end
end

local function write_lines(records)
    local check, show, canonical = open("lua.check"), open("lua.show"), open("lua.frames")
    for number, octets in ipairs(records) do
        local verdict, why, place = bactool.check(octets)
        if verdict == "canonical" then
            check:write(number, " ok\n")
        elseif verdict == "tolerated" then
            check:write(number, " tolerated at ", why, "\n")
        else
            check:write(number, " refused ", why, " at ", place, "\n")
        end
        local line, why_not, where = bactool.show(octets)
        show:write(number, " ", line or "refused " .. why_not .. " at " .. where, "\n")
        compare_pieces(number, octets)
        local spelling = bactool.normalise(octets)
        if spelling then
            canonical:write(string.char(math.floor(#spelling / 256), #spelling % 256), spelling)
        end
    end
    check:close()
    show:close()
    canonical:close()
end

-- The numbers of the names of fields, by their names in the header, in lower case.
local function codes_of_names()
    local codes = {}
    for line in io.lines("include/bactool.h") do
        local name, code = line:match("^ +BACTOOL_FIELD_([%u_]+) = (%d+)")
        if name then
            codes[name:lower()] = tonumber(code)
        end
    end
    return codes
end

-- A line has the digits of a frame, and each of its fields as name:number@place+head+length, or none if it is refused.
local function compare_fields(line, codes)
    local digits, words = line:match("^(%x*) (.*)$")
    local fields = bactool.decode(octets_of(digits)) or {}
    local index = 0
    for name, rest in words:gmatch("([%l_]+):(%S+)") do
        index = index + 1
        local field = fields[index] or {}
        local number = type(field.number) == "number" and string.format("%.0f", field.number) or field.number
        local found = string.format("%s@%s+%s+%s", number, field.place, field.head, field.length)
        if field.code ~= codes[name] or found ~= rest then
            fault("field %d of %.80s: code %s, %s in the place of %s", index, digits, field.code, found, rest)
        end
    end
    if #fields ~= index then
        fault("%.80s has %d fields in the place of %d", digits, #fields, index)
    end
end

-- The words of a frame, and its canonical octets.
local function compare_words(digits, canonical, wanted)
    local fields, octets = bactool.decode(octets_of(digits))
    local words = {}
    for index, field in ipairs(fields or {}) do
        words[index] = field.name
    end
    if octets ~= octets_of(canonical) or table.concat(words, " ") ~= wanted then
        fault("decode of %s: %s", digits, table.concat(words, " "))
    end
end

-- The number of the one element of an open value.
local function compare_number(element, wanted)
    local fields = bactool.decode(octets_of("010030010C 0C00000005 1955 3E" .. element .. "3F"))
    local found = fields and fields[#fields - 1].number
    if found ~= wanted then
        fault("the number of %s is %s in the place of %s", element, tostring(found), tostring(wanted))
    end
end

local function refuses_argument(name, ...)
    local went_well, message = pcall(bactool[name], ...)
    if went_well or not message:find("string expected", 1, true) then
        fault("%s takes %s", name, tostring((...)))
    end
end

write_lines(records_of(folder .. "/frames"))

local codes = codes_of_names()
for line in io.lines(folder .. "/fields") do
    compare_fields(line, codes)
end
compare_words("0104 0005010C 0C00000005 1A0055", "0104 0005010C 0C00000005 1955",
    "prio reply conf id sa segs resp ReadProperty object property")
compare_number("2107", 7)
compare_number("250720000000000000", 2 ^ 53)
compare_number("250720000000000001", "9007199254740993")
compare_number("2508FFFFFFFFFFFFFFFF", "18446744073709551615")
compare_number("31FB", "18446744073709551611")

for _, name in ipairs { "check", "normalise", "show", "decode" } do
    refuses_argument(name)
    refuses_argument(name, nil)
    refuses_argument(name, 16)
    refuses_argument(name, {})
    local found, why, place = bactool[name](octets_of("0104 0005020F 0C00400001 1955 3E 4442C80000 3F 4911"))
    if found ~= nil or why ~= "Content" or place ~= 21 then
        fault("%s does not refuse priority 17 as Content at 21", name)
    end
    found, why, place = bactool[name]("")
    if found ~= nil or why ~= "Short" or place ~= 0 then
        fault("%s does not refuse no octets as Short at 0", name)
    end
end

refuses_argument("explain")
refuses_argument("explain", 16)
local pieces = bactool.explain(octets_of("0104 0005020F 0C00400001 1955 3E 4442C80000 3F 4911 FF"))
local group, real, arrow, rest = pieces[9], pieces[10], pieces[13], pieces[14]
if group.tag ~= OPENING or group.number ~= 3 or real.depth ~= 1 or real.head ~= 1 or real.length ~= 5
    or arrow.kind ~= REFUSED or arrow.number ~= 9 or not arrow.text:find("^<%- Content") or rest.kind ~= REST or #pieces ~= 14 then
    fault("explain has other pieces of priority 17")
end

os.exit(faults == 0 and 0 or 1, true)
