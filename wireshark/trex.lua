-- Shows the latency headers of trex, version 1 and 2, in Wireshark's packet tree: what the last 16 or 24 bytes of a packet say of its flow,
-- its sequence number and its time, and the latency, the capture's time of the packet less the header's. Names for filters, columns and
-- plots: trex.version, trex.flow, trex.sequence, trex.time, trex.time_ns and trex.latency.
--
-- Load it with `wireshark -X lua_script:wireshark/trex.lua` or the same words after `tshark`, or copy it into the folder of personal Lua
-- plugins, which Wireshark names under Help, About Wireshark, Folders.

local trex = Proto("trex", "trex latency header")

local fields = {
  version = ProtoField.uint8("trex.version", "Version"),
  flow = ProtoField.uint32("trex.flow", "Flow"),
  sequence = ProtoField.uint64("trex.sequence", "Sequence number"),
  time = ProtoField.absolute_time("trex.time", "Time", base.UTC),
  -- The time again, as the header has it: Wireshark plots numbers, and no absolute times.
  time_ns = ProtoField.uint64("trex.time_ns", "Time in ns"),
  latency = ProtoField.int64("trex.latency", "Latency in ns"),
}
trex.fields = fields

local frame_time = Field.new("frame.time")

local NS_IN_SECOND = 1000000000
-- A difference of so many seconds or more has no room in 64 bits as ns.
local TOO_FAR = 9223372036

-- Both headers, in the order in which they are looked for: the size, the mark that begins them, and the byte at which each number begins.
-- A number ends where the next one begins, and the time has 8 bytes.
local layouts = {
  { size = 16, mark = 0xAB01, flow = 2, sequence = 4, time = 8 },
  { size = 24, mark = 0xAB020000, flow = 4, sequence = 8, time = 16 },
}

-- The layout and the bytes of the header at the frame's end, or nil where there is none. A frame that was cut short has none.
local function find_header(frame, packet)
  if packet.caplen ~= packet.len then return nil end
  local length = frame:len()
  for _, layout in ipairs(layouts) do
    local at = length - layout.size
    if at >= 0 and frame(at, layout.flow):uint() == layout.mark then
      return layout, frame(at, layout.size)
    end
  end
end

-- How many ns the frame was captured after the time, or nil where the capture has no times or 64 bits don't hold the number.
local function latency_since(time)
  local captured = frame_time()
  if not captured then return nil end
  local late = captured.value - time
  if math.abs(late.secs) >= TOO_FAR then return nil end
  return Int64(late.secs) * NS_IN_SECOND + late.nsecs
end

function trex.dissector(frame, packet, tree)
  local layout, header = find_header(frame, packet)
  if not layout then return end

  local version = header(1, 1)
  local flow = header(layout.flow, layout.sequence - layout.flow)
  local sequence = header(layout.sequence, layout.time - layout.sequence)
  local ns = header(layout.time, 8)
  local time = NSTime((ns:uint64() / NS_IN_SECOND):tonumber(), (ns:uint64() % NS_IN_SECOND):tonumber())
  local latency = latency_since(time)

  local item = tree:add(trex, header)
  item:append_text(", flow " .. flow:uint())
  item:add(fields.version, version)
  item:add(fields.flow, flow)
  item:add(fields.sequence, sequence)
  item:add(fields.time, ns, time)
  item:add(fields.time_ns, ns)
  if latency then item:add(fields.latency, latency):set_generated() end
end

-- It sees each frame whole, after all other dissectors.
register_postdissector(trex)
