-- PROFIBUS FDL (the data link layer of IEC 61158 type 3) for Wireshark 3.6 and later.
--
-- Install it for one user (Wireshark: Help > About > Folders > Personal Lua Plugins):
--
--     mkdir -p ~/.local/lib/wireshark/plugins
--     cp profibus-fdl.lua ~/.local/lib/wireshark/plugins/
--
-- or name it in a call:
--
--     tshark -X lua_script:profibus-fdl.lua -r capture.pcapng
--     tshark -X lua_script:profibus-fdl.lua -q -z profibus_fdl -r capture.pcapng    the rotations of the token
--
-- It reads captures of link type 147 (USER0), and pcapng of link type 257 (PROFIBUS_DL), which Wireshark 4.0 opens but has
-- no dissector for. Each packet is one telegram, from its start delimiter on.

local fdl = Proto("pbfdl", "PROFIBUS FDL")

local STARTS = { [0x10] = "SD1, no data", [0x68] = "SD2, data", [0xa2] = "SD3, eight octets of data",
    [0xdc] = "SD4, token", [0xe5] = "SC, short acknowledgement" }
local REQUESTS = { [3] = "SDA low", [4] = "SDN low", [5] = "SDA high", [6] = "SDN high", [9] = "FDL status",
    [12] = "SRD low", [13] = "SRD high" }
local REPLIES = { [0] = "OK", [1] = "UE", [2] = "RR", [3] = "RS", [8] = "DL", [9] = "NR", [10] = "DH", [12] = "RDL",
    [13] = "RDH" }
local STATIONS = { [0] = "passive", [1] = "master not ready", [2] = "master ready", [3] = "master in ring" }
local END = 0x16
local ALL = 127

-- ---- fields

local f = {
    start = ProtoField.uint8("pbfdl.sd", "Start delimiter", base.HEX, STARTS),
    length = ProtoField.uint8("pbfdl.le", "Length"),
    again = ProtoField.uint8("pbfdl.ler", "Length repeated"),
    second = ProtoField.uint8("pbfdl.sd2", "Start delimiter repeated", base.HEX),
    da = ProtoField.uint8("pbfdl.da", "Destination address", base.DEC, nil, 0x7f),
    da_extension = ProtoField.bool("pbfdl.da.ext", "Destination extension", 8, nil, 0x80),
    sa = ProtoField.uint8("pbfdl.sa", "Source address", base.DEC, nil, 0x7f),
    sa_extension = ProtoField.bool("pbfdl.sa.ext", "Source extension", 8, nil, 0x80),
    dsap = ProtoField.uint8("pbfdl.dsap", "Destination service access point", base.DEC, nil, 0x3f),
    ssap = ProtoField.uint8("pbfdl.ssap", "Source service access point", base.DEC, nil, 0x3f),
    fc = ProtoField.uint8("pbfdl.fc", "Frame control", base.HEX),
    request = ProtoField.bool("pbfdl.fc.request", "Request", 8, nil, 0x40),
    fcb = ProtoField.bool("pbfdl.fc.fcb", "Frame count bit", 8, nil, 0x20),
    fcv = ProtoField.bool("pbfdl.fc.fcv", "Frame count bit valid", 8, nil, 0x10),
    station = ProtoField.uint8("pbfdl.fc.station", "Station type", base.DEC, STATIONS, 0x30),
    asks = ProtoField.uint8("pbfdl.fc.asks", "Function", base.DEC, REQUESTS, 0x0f),
    says = ProtoField.uint8("pbfdl.fc.says", "Function", base.DEC, REPLIES, 0x0f),
    unit = ProtoField.bytes("pbfdl.unit", "Unit"),
    fcs = ProtoField.uint8("pbfdl.fcs", "Frame check sequence", base.HEX),
    fcs_good = ProtoField.bool("pbfdl.fcs.good", "Frame check sequence good"),
    stop = ProtoField.uint8("pbfdl.ed", "End delimiter", base.HEX),
    kind = ProtoField.string("pbfdl.kind", "Kind"),
    fault = ProtoField.string("pbfdl.fault", "Fault"),
    request_in = ProtoField.framenum("pbfdl.request_in", "Request in", base.NONE, frametype.REQUEST),
    reply_in = ProtoField.framenum("pbfdl.reply_in", "Reply in", base.NONE, frametype.RESPONSE),
    reply_time = ProtoField.relative_time("pbfdl.reply_time", "Time from the request's begin to the reply's"),
    retry_of = ProtoField.framenum("pbfdl.retry_of", "Retry of", base.NONE, frametype.RETRANS_PREV),
    rotation = ProtoField.relative_time("pbfdl.rotation", "Token rotation time"),
}
fdl.fields = {}
for _, field in pairs(f) do fdl.fields[#fdl.fields + 1] = field end

local e = {
    fcs = ProtoExpert.new("pbfdl.expert.fcs", "Wrong frame check sequence", expert.group.CHECKSUM, expert.severity.ERROR),
    malformed = ProtoExpert.new("pbfdl.expert.malformed", "No telegram", expert.group.MALFORMED, expert.severity.ERROR),
    retry = ProtoExpert.new("pbfdl.expert.retry", "Sent again", expert.group.SEQUENCE, expert.severity.NOTE),
    unanswered = ProtoExpert.new("pbfdl.expert.unanswered", "Request without a reply", expert.group.SEQUENCE, expert.severity.NOTE),
}
fdl.experts = { e.fcs, e.malformed, e.retry, e.unanswered }

-- ---- octets

-- The telegram of some octets: where its parts are, by their index from 0; or the fault, named as `ringplay decode` does.
local function parse(tvb)
    local n = tvb:len()
    local function at(i) return tvb(i, 1):uint() end
    if n == 0 then return nil, "Empty" end
    local t = { start = at(0) }
    if t.start == 0xe5 then
        if n > 1 then return nil, "Trailing" end
        t.kind = "ack"
        return t
    end
    if t.start == 0xdc then
        if n < 3 then return nil, "Truncated" end
        if at(1) > 126 or at(2) > 126 then return nil, "BadAddress" end
        if n > 3 then return nil, "Trailing" end
        t.kind, t.da, t.sa = "token", 1, 2
        return t
    end
    local from, units = 1, 0
    if t.start == 0x68 then
        if n < 2 then return nil, "Truncated" end
        from, units = 4, at(1) - 3
        if at(1) >= 4 and at(1) <= 249 and n < at(1) + 6 or n < 4 then return nil, "Truncated" end
        if at(1) < 4 or at(1) > 249 then return nil, "BadLength" end
        if at(2) ~= at(1) then return nil, "LengthsDiffer" end
        if at(3) ~= 0x68 then return nil, "BadSecondStart" end
    elseif t.start == 0xa2 then
        units = 8
    elseif t.start ~= 0x10 then
        return nil, "BadStart"
    end
    if n < from + units + 5 then return nil, "Truncated" end
    t.da, t.sa, t.fc, t.unit, t.units, t.fcs = from, from + 1, from + 2, from + 3, units, from + 3 + units
    if at(t.sa) % 128 == ALL then return nil, "BadAddress" end
    if at(t.fc) >= 128 then return nil, "BadFc" end
    local sum = 0
    for i = from, t.fcs - 1 do sum = (sum + at(i)) % 256 end
    t.sum = sum
    t.kind = at(t.fc) >= 64 and "request" or "reply"
    if at(t.fcs) ~= sum then return t, "BadFcs" end
    if at(t.fcs + 1) ~= END then return t, "BadEnd" end
    if n > t.fcs + 2 then return t, "Trailing" end
    return t
end

-- ---- what is kept from packet to packet, by the packet's number

local replies, requests, retries, rotations, tokens, last, open

-- `last` is the last telegram; `open` is the last request, until something follows that is not its reply.
function fdl.init()
    replies, requests, retries, rotations, tokens, last, open = {}, {}, {}, {}, {}, nil, nil
end

-- A token that is passed once more has not been to its destination, so no rotation ends with it.
local function note_token(now, da, sa)
    if da ~= sa and last and last.octets == now.octets then
        retries[now.number] = last.number
        return
    end
    if tokens[da] then rotations[now.number] = now.time - tokens[da] end
    tokens[da] = now.time
end

local function note_request(now, da, sa, code)
    if open and last == open and open.octets == now.octets then retries[now.number] = open.number end
    now.da, now.sa = da, sa
    now.is_answered = code ~= 4 and code ~= 6 and da ~= ALL
    requests[now.number] = now
end

local function note_reply(now, is_from)
    if open and last == open and open.is_answered and is_from(open) then
        replies[now.number] = { request = open.number, time = now.time - open.time }
        open.reply = now.number
    end
end

-- Notes a telegram when it is seen first.
local function note(tvb, pinfo, t)
    local now = { number = pinfo.number, time = pinfo.rel_ts, octets = tostring(tvb:bytes()) }
    local function station(place) return tvb(place, 1):uint() % 128 end
    if t.kind == "token" then
        note_token(now, station(t.da), station(t.sa))
        open = nil
    elseif t.kind == "request" then
        note_request(now, station(t.da), station(t.sa), tvb(t.fc, 1):uint() % 16)
        open = now
    else
        note_reply(now, function(request)
            return t.kind == "ack" or station(t.da) == request.sa and station(t.sa) == request.da
        end)
    end
    last = now
end

-- ---- the dissector

-- A number of seconds as a time.
local function seconds(number)
    local whole = math.floor(number)
    return NSTime.new(whole, math.floor((number - whole) * 1e9 + 0.5))
end

local function add_addresses(tree, tvb, t)
    for _, it in ipairs({ { f.da, f.da_extension, t.da }, { f.sa, f.sa_extension, t.sa } }) do
        tree:add(it[1], tvb(it[3], 1))
        tree:add(it[2], tvb(it[3], 1))
    end
end

-- The extensions that bit 7 of an address announces are the unit's first octets.
local function add_unit(tree, tvb, t)
    if t.units == 0 then return end
    local unit = tree:add(f.unit, tvb(t.unit, t.units))
    local place = t.unit
    for _, it in ipairs({ { t.da, f.dsap }, { t.sa, f.ssap } }) do
        if tvb(it[1], 1):uint() >= 128 and place < t.unit + t.units then
            unit:add(it[2], tvb(place, 1))
            place = place + 1
        end
    end
end

local function add_control(tree, tvb, t)
    local fc = tree:add(f.fc, tvb(t.fc, 1))
    local octet = tvb(t.fc, 1)
    fc:add(f.request, octet)
    if t.kind == "request" then
        fc:add(f.fcb, octet)
        fc:add(f.fcv, octet)
        fc:add(f.asks, octet)
    else
        fc:add(f.station, octet)
        fc:add(f.says, octet)
    end
end

local function add_end(tree, tvb, t)
    local fcs = tree:add(f.fcs, tvb(t.fcs, 1))
    local good = tvb(t.fcs, 1):uint() == t.sum
    tree:add(f.fcs_good, good):set_generated()
    if not good then
        fcs:append_text(string.format(" (should be 0x%02x)", t.sum))
        fcs:add_proto_expert_info(e.fcs)
    end
    if tvb:len() > t.fcs + 1 then tree:add(f.stop, tvb(t.fcs + 1, 1)) end
end

local function add_match(tree, pinfo)
    local number = pinfo.number
    local reply, request = replies[number], requests[number]
    if reply then
        tree:add(f.request_in, reply.request):set_generated()
        tree:add(f.reply_time, seconds(reply.time)):set_generated()
    end
    if request and request.reply then tree:add(f.reply_in, request.reply):set_generated() end
    if request and request.is_answered and not request.reply and pinfo.visited then
        tree:add_proto_expert_info(e.unanswered)
    end
    if retries[number] then
        tree:add(f.retry_of, retries[number]):set_generated()
        tree:add_proto_expert_info(e.retry)
    end
    if rotations[number] then tree:add(f.rotation, seconds(rotations[number])):set_generated() end
end

local function address(octet)
    return octet % 128 == ALL and "all" or tostring(octet % 128)
end

-- The words of the Info column.
local function words(tvb, t)
    if t.kind == "ack" then return "Short acknowledgement" end
    if t.kind == "token" then
        local da, sa = tvb(t.da, 1):uint(), tvb(t.sa, 1):uint()
        return da == sa and "Token claimed by " .. sa or "Token from " .. sa .. " to " .. da
    end
    local fc = tvb(t.fc, 1):uint()
    local data = t.units > 0 and ", " .. t.units .. (t.units == 1 and " octet" or " octets") or ""
    if t.kind == "request" then
        local again = math.floor(fc / 16) % 2 == 1 and " FCB " .. math.floor(fc / 32) % 2 or ""
        return (REQUESTS[fc % 16] or "Request " .. fc % 16) .. again .. data
    end
    local station = STATIONS[math.floor(fc / 16) % 4]
    return "Reply " .. (REPLIES[fc % 16] or fc % 16) .. ", " .. station .. data
end

function fdl.dissector(tvb, pinfo, root)
    pinfo.cols.protocol = "FDL"
    local tree = root:add(fdl, tvb())
    local t, fault = parse(tvb)
    if tvb:len() > 0 then tree:add(f.start, tvb(0, 1)) end
    if fault then
        tree:add(f.fault, fault):set_generated()
        if fault ~= "BadFcs" then tree:add_proto_expert_info(e.malformed, "No telegram: " .. fault) end
    end
    if not t then
        pinfo.cols.info = "No telegram: " .. fault
        return tvb:len()
    end
    if not fault and not pinfo.visited then note(tvb, pinfo, t) end
    tree:add(f.kind, t.kind):set_generated()
    if t.start == 0x68 then
        tree:add(f.length, tvb(1, 1))
        tree:add(f.again, tvb(2, 1))
        tree:add(f.second, tvb(3, 1))
    end
    if t.da then
        pinfo.cols.src = address(tvb(t.sa, 1):uint())
        pinfo.cols.dst = address(tvb(t.da, 1):uint())
        add_addresses(tree, tvb, t)
    end
    if t.fc then
        add_control(tree, tvb, t)
        add_unit(tree, tvb, t)
        add_end(tree, tvb, t)
    end
    local info = words(tvb, t)
    if not fault then add_match(tree, pinfo) end
    pinfo.cols.info = fault and info .. " [" .. fault .. "]" or info
    tree:append_text(", " .. info)
    return tvb:len()
end

local encapsulations = DissectorTable.get("wtap_encap")
encapsulations:add(wtap.USER0, fdl)
-- Wireshark 4.0 has no number of its own for link type 257: its packets come with encapsulation 0.
pcall(function() encapsulations:add(0, fdl) end)

-- ---- the rotations of the token: `-z profibus_fdl` of tshark, and the menu Tools of Wireshark

local rotation_of, token_to = Field.new("pbfdl.rotation"), Field.new("pbfdl.da")

-- Begins to count. `show` is called with the text at the end.
local function count_rotations(show)
    local tap = Listener.new("frame", "pbfdl.rotation")
    local found = {}
    function tap.packet()
        local to, time = token_to().value, rotation_of().value:tonumber()
        local it = found[to] or { count = 0, sum = 0, least = math.huge, most = 0 }
        it.count, it.sum = it.count + 1, it.sum + time
        it.least, it.most = math.min(it.least, time), math.max(it.most, time)
        found[to] = it
    end
    function tap.reset() found = {} end
    function tap.draw()
        local lines = { "Token rotation in microseconds", "station  rotations  shortest      mean   longest" }
        local stations = {}
        for to in pairs(found) do stations[#stations + 1] = to end
        table.sort(stations)
        for _, to in ipairs(stations) do
            local it = found[to]
            lines[#lines + 1] = string.format("%7d  %9d  %8.1f  %8.1f  %8.1f", to, it.count, it.least * 1e6, it.sum / it.count * 1e6, it.most * 1e6)
        end
        show(table.concat(lines, "\n") .. "\n")
    end
    return tap
end

register_stat_cmd_arg("profibus_fdl", function() count_rotations(io.write) end)

if gui_enabled() then
    register_menu("PROFIBUS token rotation", function()
        local window = TextWindow.new("PROFIBUS token rotation")
        local tap = count_rotations(function(text) window:set(text) end)
        window:set_atclose(function() tap:remove() end)
        retap_packets()
    end, MENU_TOOLS_UNSORTED)
end
