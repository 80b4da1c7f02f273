-- Frames of `mip node` and `mip hub` for Wireshark and tshark: byte 0 and an IPv6 packet, or byte 1, the two addresses of a shield, and a packet.
--     tshark -X lua_script:tools/frames.lua -r CAPTURE -Y mipframe
local frames = Proto("mipframe", "Frame of mip")
local kind = ProtoField.uint8("mipframe.kind", "Kind", base.DEC, { [0] = "packet", [1] = "packet under a shield" })
local from, to = ProtoField.ipv6("mipframe.from", "Shield from"), ProtoField.ipv6("mipframe.to", "Shield to")
frames.fields = { kind, from, to }

-- A datagram is a frame where the packet in it has version 6 and ends where the datagram does.
frames:register_heuristic("udp", function(bytes, info, tree)
    local at = bytes:len() > 40 and ({ [0] = 1, [1] = 33 })[bytes(0, 1):uint()]
    if not at or bytes:len() < at + 40 or bytes(at, 1):bitfield(0, 4) ~= 6 or bytes:len() ~= at + 40 + bytes(at + 4, 2):uint() then return false end
    local frame = tree:add(frames, bytes(0, at))
    frame:add(kind, bytes(0, 1))
    if at == 33 then frame:add(from, bytes(1, 16)); frame:add(to, bytes(17, 16)) end
    Dissector.get("ipv6"):call(bytes(at):tvb(), info, tree)
    return true
end)
