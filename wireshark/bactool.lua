-- SPDX-License-Identifier: Apache-2.0 OR MIT
-- bactool.lua: checks each BACnet NPDU in Wireshark and tshark, by the library libbactool. It was tried with tshark 4.0.
--
--   tshark -X lua_script:wireshark/bactool.lua -Y 'bactool.verdict == "refused"' -r site.pcap
--
-- It needs the module bactool.so, which `make wireshark` builds, in its own folder, in the folder `out` there, or where
-- Lua looks for modules. Without the module it reports that once, and does nothing. docs/GUIDE.md has a page on it.

-- It may be loaded twice: from the folder of plugins, and by -X lua_script. The second time it does nothing.
local LOADED = "bactool post-dissector"
if package.loaded[LOADED] then
    return
end
package.loaded[LOADED] = true

-- The folder of this file. Wireshark sets __DIR__ for a user's own files, and not for the plugins of the system.
local FOLDER = __DIR__ or debug.getinfo(1, "S").source:match("^@(.*)/") or "."

-- `require` would find this file itself, if it is in the current folder: its name is that of the module.
local function load_module()
    local path = FOLDER .. "/?.so;" .. FOLDER .. "/out/?.so;" .. package.cpath
    local file = package.searchpath("bactool", path)
    if not file then
        return nil, "there is no module bactool.so"
    end
    local open, fault = package.loadlib(file, "luaopen_bactool")
    if not open then
        return nil, fault
    end
    local opened, module = pcall(open)
    return opened and module, module
end

local bactool, fault = load_module()
if not bactool then
    report_failure("bactool: no NPDU is checked: " .. fault)
    return
end
set_plugin_info { version = bactool.version, description = "Checks BACnet NPDUs" }

local proto = Proto("bactool", "bactool: BACnet NPDUs checked")
local fields = {
    verdict = ProtoField.string("bactool.verdict", "Verdict", base.ASCII, "canonical, tolerated, refused or incomplete"),
    why = ProtoField.string("bactool.why", "Why", base.ASCII, "Why the NPDU is refused"),
    place = ProtoField.uint32("bactool.place", "Place", base.DEC, nil, nil,
        "The first octet at which it is refused, or differs from the canonical octets, counted from 0"),
    line = ProtoField.string("bactool.line", "Line", base.UNICODE, "The line of bactool show"),
    canonical = ProtoField.string("bactool.canonical", "Canonical octets", base.ASCII,
        "The octets that mean the same and are canonical, if the NPDU is tolerated"),
}
proto.fields = fields

-- Where the NPDUs of a packet are.
--
-- A post-dissector gets the whole packet. Wireshark's own items say what of it is an NPDU, but not always to which octet:
-- the item `bacnet` ends with the head of the NPDU in some runs, and is missing if the NPDU has less than two octets.
-- So the length comes from the link, where it has one that is read here.

local items = {}
for _, name in ipairs { "bvlc", "mstp", "bacnet", "bacapp", "data", "udp.payload" } do
    items[name] = Field.new(name)
end

-- The functions of BVLL messages that have an NPDU, by the type: BACnet/IP (annex J) and BACnet/IPv6 (annex U).
local FUNCTIONS_WITH_NPDU = {
    [0x81] = { [0x04] = true, [0x09] = true, [0x0A] = true, [0x0B] = true },
    [0x82] = { [0x01] = true, [0x02] = true, [0x08] = true, [0x0C] = true },
}
local LEAST_BVLL = 4

-- The types of MS/TP frames that have an NPDU (clause 9.3): data that expects a reply, and data that does not.
local MSTP_FRAMES_WITH_NPDU = { [5] = true, [6] = true }
local MSTP_HEAD = 8

-- An NPDU: the octets in which it is, where it begins, how many of its octets are there, and whether these are all.
-- `length` is how many octets it has by its link, and `limit` where what the link carries ends.
local function npdu_of_length(source, first, length, limit)
    local there = math.min(length, limit - first)
    if there < 0 then
        return nil
    end
    return { source = source, first = first, there = there, whole = there == length, length = length }
end

-- Where the UDP payload ends that begins there. What is after it in the packet is padding.
local function end_of_payload(source, first)
    for _, payload in ipairs { items["udp.payload"]() } do
        if payload.offset == first and payload.source == source then
            return first + payload.len
        end
    end
    return source:len()
end

-- The NPDU of a BVLL message, of which `item` is the head.
local function npdu_of_bvll(item)
    local source, head = item.source, item.offset
    if item.len < LEAST_BVLL then
        return nil
    end
    local with_npdu = FUNCTIONS_WITH_NPDU[source(head, 1):uint()]
    if not with_npdu or not with_npdu[source(head + 1, 1):uint()] then
        return nil
    end
    local length = source(head + 2, 2):uint() - item.len
    return npdu_of_length(source, head + item.len, length, end_of_payload(source, head))
end

-- The NPDU of an MS/TP frame, of which `item` is the head.
local function npdu_of_mstp(item)
    local source, head = item.source, item.offset
    if item.len < MSTP_HEAD or not MSTP_FRAMES_WITH_NPDU[source(head + 2, 1):uint()] then
        return nil
    end
    return npdu_of_length(source, head + MSTP_HEAD, source(head + 5, 2):uint(), source:len())
end

-- The NPDU of another link, of which `item` is the item `bacnet`: it ends where Wireshark's last item of it ends. An APDU
-- of less than four octets may have no item: such an NPDU is refused as Short even before it. If the packet was not
-- captured whole, the length of the NPDU is not known.
local function npdu_of_items(item)
    local source, first = item.source, item.offset
    local head_end = first + item.len
    local last = head_end
    for _, name in ipairs { "bacapp", "data" } do
        for _, rest in ipairs { items[name]() } do
            if rest.offset >= first and rest.offset <= head_end and rest.source == source then
                last = math.max(last, rest.offset + rest.len)
            end
        end
    end
    return { source = source, first = first, there = last - first, whole = source:len() == source:reported_len() }
end

-- Whether the item `bacnet` is one of these NPDUs.
local function is_among(npdus, item)
    for _, npdu in ipairs(npdus) do
        if npdu.first == item.offset and npdu.source == item.source then
            return true
        end
    end
    return false
end

local function npdus_of_packet()
    local npdus = {}
    for _, item in ipairs { items.bvlc() } do
        npdus[#npdus + 1] = npdu_of_bvll(item)
    end
    for _, item in ipairs { items.mstp() } do
        npdus[#npdus + 1] = npdu_of_mstp(item)
    end
    for _, item in ipairs { items.bacnet() } do
        if not is_among(npdus, item) then
            npdus[#npdus + 1] = npdu_of_items(item)
        end
    end
    return npdus
end

-- What is shown of an NPDU.

-- The verdict on the octets of an NPDU that are there, with the reason and the place. If others are missing, only a
-- refusal at one that is there is certain.
local function judge(octets, whole)
    local verdict, why, place = bactool.check(octets)
    if verdict == "tolerated" then
        why, place = nil, why
    end
    verdict = verdict or "refused"
    if not whole and (verdict ~= "refused" or why == "Short") then
        return "incomplete"
    end
    return verdict, why, place
end

-- The parts of a line of show, of which each is that of one field.
local function parts_of_line(line)
    local parts, from = {}, 1
    while from <= #line do
        local part = line:match('^s:"[^"]*"', from) or line:match("^net type=%x+", from)
            or line:match("^[^ (){}]*[({]", from) or line:match("^[)}]", from) or line:match("^[^ )}]+", from)
        parts[#parts + 1] = part
        from = line:match("^ *()", from + #part)
    end
    return parts
end

-- A line for each field of a canonical NPDU, which marks the octets of the field. What is in a list, an item, a value or
-- a group is below the line that begins it.
local function add_fields(tree, npdu, octets, line)
    local parts, open = parts_of_line(line), { tree }
    for index, field in ipairs((bactool.decode(octets))) do
        local part = parts[index]
        if part == ")" or part == "}" then
            open[#open] = nil
        end
        local range = npdu.source(npdu.first + field.place, field.head + field.length)
        local item = open[#open]:add(range, part)
        if part:find("[({]$") then
            open[#open + 1] = item
        end
    end
end

-- A line for each piece of any other NPDU, which marks the octets of the piece. What is in a group is below the line that
-- begins it.
local OPENING = 3
local function add_pieces(tree, npdu, octets)
    local open = { [0] = tree }
    for _, piece in ipairs(bactool.explain(octets)) do
        local item = open[piece.depth]:add(npdu.source(npdu.first + piece.place, piece.length), piece.text)
        if piece.tag == OPENING then
            open[piece.depth + 1] = item
        end
    end
end

-- The octet at a place, or the last one if the NPDU ends there.
local function octet_at(range, place)
    local length = range:len()
    return length == 0 and range or range(math.min(place, length - 1), 1)
end

local function digits_of(octets)
    return (octets:gsub(".", function(octet) return string.format("%02X", octet:byte()) end))
end

local function heading_of(npdu, verdict, why, place)
    if verdict == "incomplete" then
        return "bactool: incomplete after " .. npdu.there .. (npdu.length and " of " .. npdu.length or "") .. " octets"
    end
    return "bactool: " .. verdict .. (why and " " .. why or "") .. (place and " at " .. place or "")
end

local function add_npdu(tree, npdu)
    local range = npdu.source(npdu.first, npdu.there)
    local octets = range:raw()
    local verdict, why, place = judge(octets, npdu.whole)
    local subtree = tree:add(proto, range, heading_of(npdu, verdict, why, place))
    subtree:add(fields.verdict, range, verdict)
    if why then
        subtree:add(fields.why, octet_at(range, place), why)
    end
    if place then
        subtree:add(fields.place, octet_at(range, place), place)
    end
    if verdict == "tolerated" then
        subtree:add(fields.canonical, range, digits_of(bactool.normalise(octets)))
    end
    if verdict == "canonical" or verdict == "tolerated" then
        local line = bactool.show(octets)
        subtree:add(fields.line, range, line)
        if verdict == "canonical" and subtree.visible then
            add_fields(subtree, npdu, octets, line)
        end
    end
    if (verdict == "tolerated" or verdict == "refused") and subtree.visible then
        add_pieces(subtree, npdu, octets)
    end
end

function proto.dissector(_, _, tree)
    for _, npdu in ipairs(npdus_of_packet()) do
        add_npdu(tree, npdu)
    end
end

register_postdissector(proto)
