-- A dissector for Wireshark and tshark. It shows each message of the office vault with its fields and, where the message reader refuses it,
-- with the number and its cause. The reader is a host's, which takes every slot from 0 to 7; a member refuses all but its own. A message is the
-- whole payload of a UDP datagram; docs/REFERENCE.md has its bytes. (A datagram of no bytes, which is refused with 14, isn't handed to a
-- dissector: it shows as UDP with Len=0.)
--
--     tshark -X lua_script:xdr/kalebasin.lua -r FILE
--     tshark -X lua_script:xdr/kalebasin.lua -r FILE -Y 'kalebasin.refusal || kalebasin.slot == 3'
--
-- Wireshark takes it from its folder of personal Lua plugins. The UDP ports are a preference: -o kalebasin.ports:9000-9002.

local LAST_SLOT = 7
local LAST_ROUND = 1000000
local LAST_SENDER = 6
local JOIN = 2
local PROPOSE = 3
local kinds = { "START", "JOIN", "PROPOSE", "VOTE" }
local causes = {
  [14] = "the message's length isn't that of its kind",
  [15] = "the message's kind isn't 1 to 4",
  [16] = "a field of the message is out of range",
  [32] = "the slot of a message or event is above 7, or a message is of another slot",
}

local vault = Proto("kalebasin", "Kalebasin office vault")
local fields = {
  slot = ProtoField.uint32("kalebasin.slot", "Slot"),
  kind = ProtoField.uint32("kalebasin.kind", "Kind", base.DEC, kinds),
  round = ProtoField.uint32("kalebasin.round", "Round"),
  sender = ProtoField.uint32("kalebasin.sender", "Sender"),
  presence = ProtoField.uint32("kalebasin.presence", "Presence", base.DEC, { [0] = "never voted", [1] = "has voted" }),
  voted = ProtoField.uint32("kalebasin.voted", "Voted round"),
  value = ProtoField.uint64("kalebasin.value", "Value"),
  rest = ProtoField.bytes("kalebasin.rest", "Bytes that are no field"),
  refusal = ProtoField.uint32("kalebasin.refusal", "Refused with", base.DEC, causes),
}
vault.fields = fields
local refused = ProtoExpert.new("kalebasin.refused", "The message is refused", expert.group.MALFORMED, expert.severity.ERROR)
local cut = ProtoExpert.new("kalebasin.cut", "The capture lacks a part of the message", expert.group.UNDECODED, expert.severity.WARN)
vault.experts = { refused, cut }

-- The word at a place; none where the bytes end before it does.
local function word(bytes, at)
  if at + 4 <= bytes:len() then
    return bytes:range(at, 4):uint()
  end
end

-- The fields of a kind with their places, from the first on.
local function layout(kind, presence)
  local places = { { fields.slot, 0, 4 }, { fields.kind, 4, 4 } }
  if kinds[kind] then
    table.insert(places, { fields.round, 8, 4 })
    table.insert(places, { fields.sender, 12, 4 })
  end
  if kind == PROPOSE then
    table.insert(places, { fields.value, 16, 8 })
  elseif kind == JOIN then
    table.insert(places, { fields.presence, 16, 4 })
    if presence == 1 then
      table.insert(places, { fields.voted, 20, 4 })
      table.insert(places, { fields.value, 24, 8 })
    end
  end
  return places
end

-- Where a field ends.
local function ends(place)
  return place[2] + place[3]
end

-- The number of the first check that fails, in the reader's order; none for a message that is read.
local function refusal(bytes)
  local kind = word(bytes, 4)
  if not kind then
    return 14
  end
  if word(bytes, 0) > LAST_SLOT then
    return 32
  end
  if not kinds[kind] then
    return 15
  end
  local presence = word(bytes, 16)
  if kind == JOIN and not presence then
    return 14
  end
  if kind == JOIN and presence > 1 then
    return 16
  end
  local places = layout(kind, presence)
  if bytes:len() ~= ends(places[#places]) then
    return 14
  end
  local round, sender = word(bytes, 8), word(bytes, 12)
  if round < 1 or round > LAST_ROUND or sender > LAST_SENDER then
    return 16
  end
  if kind == JOIN and presence == 1 then
    local voted = word(bytes, 20)
    if voted < 1 or voted >= round then
      return 16
    end
  end
end

-- A message that is read, in words; its slot is named where it isn't 0.
local function words(bytes)
  local slot, kind = word(bytes, 0), word(bytes, 4)
  local said = ("%s of round %d from member %d"):format(kinds[kind], word(bytes, 8), word(bytes, 12))
  if slot > 0 then
    said = said .. " in slot " .. slot
  end
  if kind == PROPOSE then
    return said .. " with the value " .. tostring(bytes:range(16, 8):uint64())
  end
  if kind ~= JOIN then
    return said
  end
  if word(bytes, 16) == 0 then
    return said .. ", which never voted"
  end
  return said .. (", which voted for %s in round %d"):format(tostring(bytes:range(24, 8):uint64()), word(bytes, 20))
end

-- The fields that are wholly there, then what is left over.
local function show(bytes, item)
  local at = 0
  for _, place in ipairs(layout(word(bytes, 4), word(bytes, 16))) do
    if ends(place) > bytes:len() then
      break
    end
    item:add(place[1], bytes:range(place[2], place[3]))
    at = ends(place)
  end
  if at < bytes:len() then
    item:add(fields.rest, bytes:range(at))
  end
end

function vault.dissector(bytes, packet, tree)
  packet.cols.protocol = "KALEBASIN"
  local item = tree:add(vault, bytes:range(0))
  show(bytes, item)
  local number, said
  if bytes:len() < bytes:reported_len() then
    said = "a part of the message wasn't captured"
    item:add_proto_expert_info(cut)
  else
    number = refusal(bytes)
    said = number and "refused with " .. number .. ": " .. causes[number] or words(bytes)
  end
  if number then
    item:add(fields.refusal, number):set_generated()
    item:add_proto_expert_info(refused, said)
  end
  item:append_text(", " .. said)
  packet.cols.info = said
end

-- A port for each of seven members on one machine.
vault.prefs.ports = Pref.range("UDP ports", "7070-7076", "The ports at which members get messages", 65535)
local ports = ""

local function listen()
  local udp = DissectorTable.get("udp.port")
  if ports ~= "" then
    udp:remove(ports, vault)
  end
  ports = vault.prefs.ports
  if ports ~= "" then
    udp:add(ports, vault)
  end
end

vault.prefs_changed = listen
listen()
