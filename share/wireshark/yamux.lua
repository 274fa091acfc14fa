-- Shows yamux in Wireshark and tshark: frames, their flags by name, streams, and how many bytes each side may still send on a
-- stream. A broken rule is an error of the expert information, under its number in docs/PROTOCOL.md.
--
-- Copy this file into the folder of Wireshark's personal Lua plugins (Help, About Wireshark, Folders), and choose yamux by
-- Decode As for the link's TCP port. Or: tshark -X lua_script:yamux.lua -d tcp.port==4000,yamux -r tunnel.pcap -O yamux
-- The sums are right if the capture begins with the connection and lost no packet.

local HEADER = 12
local FIRST_CREDIT, MOST_CREDIT = 262144, 4294967295
local DATA, WINDOW, PING, AWAY = 0, 1, 2, 3
local TYPES = { [DATA] = "Data", [WINDOW] = "Window Update", [PING] = "Ping", [AWAY] = "Go Away" }
local CODES = { [0] = "normal", [1] = "protocol error", [2] = "internal error" }
local FLAGS = { { 1, "SYN" }, { 2, "ACK" }, { 4, "FIN" }, { 8, "RST" } }

local yamux = Proto("yamux", "yamux, streams over one connection")
local field = {
    version = ProtoField.uint8("yamux.version", "Version"),
    type = ProtoField.uint8("yamux.type", "Type", base.DEC, TYPES),
    flags = ProtoField.uint16("yamux.flags", "Flags", base.HEX),
    syn = ProtoField.bool("yamux.flags.syn", "SYN, opens the stream or asks", 16, nil, 1),
    ack = ProtoField.bool("yamux.flags.ack", "ACK, accepts the stream or answers", 16, nil, 2),
    fin = ProtoField.bool("yamux.flags.fin", "FIN, this side sends no more", 16, nil, 4),
    rst = ProtoField.bool("yamux.flags.rst", "RST, ends the stream at once", 16, nil, 8),
    stream = ProtoField.uint32("yamux.stream", "Stream id"),
    length = ProtoField.uint32("yamux.length", "Length of the payload"),
    delta = ProtoField.uint32("yamux.delta", "Delta of the window"),
    value = ProtoField.uint32("yamux.value", "Value of the ping"),
    code = ProtoField.uint32("yamux.code", "Code", base.DEC, CODES),
    payload = ProtoField.bytes("yamux.payload", "Payload"),
    credit = ProtoField.int64("yamux.credit", "Bytes that may still be sent"),
}
for _, it in pairs(field) do
    table.insert(yamux.fields, it)
end
local told = {
    credit = ProtoExpert.new("yamux.window", "the window of a stream", expert.group.SEQUENCE, expert.severity.CHAT),
    full = ProtoExpert.new("yamux.window.full", "the window of a stream is used up", expert.group.SEQUENCE, expert.severity.NOTE),
    fault = ProtoExpert.new("yamux.fault", "a fault", expert.group.PROTOCOL, expert.severity.ERROR),
}
yamux.experts = { told.credit, told.full, told.fault }

-- `credits`: what each side may still send on a stream, as far as the first pass has come. `found`: what that pass found at
-- each frame of each packet, since Wireshark dissects packets again, in any order. `last`: the frame shown last of a packet.
local credits, found, last
function yamux.init()
    credits, found, last = {}, {}, {}
end

local function names_of(flags)
    local names = {}
    for _, flag in ipairs(FLAGS) do
        if flags % (2 * flag[1]) >= flag[1] then
            table.insert(names, flag[2])
        end
    end
    return table.concat(names, ", ")
end

-- The head of the frame that begins at this byte.
local function head_of(tvb, at)
    return {
        version = tvb(at, 1):uint(),
        type = tvb(at + 1, 1):uint(),
        flags = tvb(at + 2, 2):uint(),
        stream = tvb(at + 4, 4):uint(),
        length = tvb(at + 8, 4):uint(),
    }
end

-- The fault that the head shows by itself, or none.
local function fault_of(head)
    if head.version ~= 0 then
        return "B1: the version is not 0"
    elseif not TYPES[head.type] then
        return "B2: the type is above 3"
    elseif head.type == AWAY and not CODES[head.length] then
        return "B7: the code of the Go Away is above 2"
    end
end

-- What this frame does to a window of its stream: which side's bytes it bounds, the sum after the frame, and a fault. After a
-- fault the stream is counted no more.
local function account(head, pinfo)
    local sender = tostring(pinfo.src) .. " " .. pinfo.src_port
    local reader = tostring(pinfo.dst) .. " " .. pinfo.dst_port
    local ways = { sender .. " " .. reader .. " " .. head.stream, reader .. " " .. sender .. " " .. head.stream }
    local way = head.type == DATA and ways[1] or ways[2]
    if head.flags % 2 == 1 then
        credits[ways[1]], credits[ways[2]] = FIRST_CREDIT, FIRST_CREDIT
    end
    local before = credits[way]
    if not before then
        return {}
    end
    local sum = head.type == DATA and before - head.length or before + head.length
    local fault
    if sum < 0 then
        fault = "B5: more bytes than the window of stream " .. head.stream
    elseif sum > MOST_CREDIT then
        fault = "B6: a credit above 4,294,967,295 on stream " .. head.stream
    end
    credits[way] = not fault and sum or nil
    return { who = head.type == DATA and "the sender" or "the receiver", sum = sum, fault = fault }
end

-- What is found at the packet's next frame: each pass goes through all its frames in order.
local function finding(head, pinfo)
    local frames = found[pinfo.number] or {}
    found[pinfo.number] = frames
    if not pinfo.visited then
        local is_of_stream = not fault_of(head) and (head.type == DATA or head.type == WINDOW)
        table.insert(frames, is_of_stream and account(head, pinfo) or {})
        return frames[#frames]
    end
    local place = (last[pinfo.number] or 0) % #frames + 1
    last[pinfo.number] = place
    return frames[place]
end

local function show_flags(tree, range, flags)
    local item = tree:add(field.flags, range)
    item:append_text(flags == 0 and " (none)" or " (" .. names_of(flags) .. ")")
    for _, flag in ipairs(FLAGS) do
        item:add(field[flag[2]:lower()], range)
    end
end

local function show_credit(tree, head, it)
    if not it.sum then
        return
    end
    local item = tree:add(field.credit, Int64(it.sum))
    item:set_generated()
    local words = string.format("%s may still send %d bytes on stream %d", it.who, it.sum, head.stream)
    item:add_proto_expert_info(it.sum == 0 and told.full or told.credit, words)
    if it.fault then
        item:add_proto_expert_info(told.fault, it.fault)
    end
end

-- A whole frame.
local function show(tvb, pinfo, tree)
    local head = head_of(tvb, 0)
    local it = finding(head, pinfo)
    local kind = TYPES[head.type] or "Unknown"
    local words = head.flags == 0 and kind or kind .. " (" .. names_of(head.flags) .. ")"
    local top = tree:add(yamux, tvb(), string.format("yamux, %s, stream %d, length %d", words, head.stream, head.length))
    top:add(field.version, tvb(0, 1))
    top:add(field.type, tvb(1, 1))
    show_flags(top, tvb(2, 2), head.flags)
    top:add(field.stream, tvb(4, 4))
    local last_field = ({ [WINDOW] = field.delta, [PING] = field.value, [AWAY] = field.code })[head.type] or field.length
    top:add(last_field, tvb(8, 4))
    if head.type == DATA and tvb:len() > HEADER then
        top:add(field.payload, tvb(HEADER))
    end
    show_credit(top, head, it)
    local fault = fault_of(head)
    if fault then
        top:add_proto_expert_info(told.fault, fault)
    end
    pinfo.cols.info:append(string.format(" [%s id=%d len=%d]", words, head.stream, head.length))
    return tvb:len()
end

-- How long the frame at this byte is. After a bad head the rest can't be cut into frames.
local function length_of(tvb, _, at)
    local head = head_of(tvb, at)
    if head.version ~= 0 or not TYPES[head.type] then
        return math.max(tvb:len() - at, HEADER)
    end
    return head.type == DATA and HEADER + head.length or HEADER
end

function yamux.dissector(tvb, pinfo, tree)
    pinfo.cols.protocol = "yamux"
    pinfo.cols.info = ""
    dissect_tcp_pdus(tvb, tree, HEADER, length_of, show)
    return tvb:len()
end

DissectorTable.get("tcp.port"):add_for_decode_as(yamux)
