-- K1 and K2 of SDH frames in words, for Wireshark and tshark:
--
--   tshark -X lua_script:aps.lua -r ring.erf -Y 'aps.code == "SF" && aps.destination == 3'
--
-- A frame is an STM-1, STM-4, STM-16 or more without its scrambling, as sdhring-capture writes it: 2430 bytes for each AU-4. The words are
-- shown whatever Wireshark's own preference for the rate is. Codes and marks are those of this project, after ITU-T G.841.

local CODES = { [13] = "FS", [11] = "SF", [8] = "SD", [6] = "MS", [5] = "WTR", [1] = "RR", [0] = "NR" }
local MARKS = { [7] = "MS-AIS", [6] = "RDI", [2] = "bridged and switched", [1] = "bridged", [0] = "idle" }
local RATES = { 1, 4, 16, 64, 256 }

local aps = Proto("aps", "SDH automatic protection switching: K1 and K2")
local code = ProtoField.string("aps.code", "Code")
local destination = ProtoField.uint8("aps.destination", "Destination", base.DEC)
local source = ProtoField.uint8("aps.source", "Source", base.DEC)
local path = ProtoField.string("aps.path", "Path")
local mark = ProtoField.string("aps.mark", "Mark")
local word = ProtoField.string("aps.word", "Word")
aps.fields = { code, destination, source, path, mark, word }

-- Returns how many AU-4s a frame of this length has, or nil where it is no frame.
local function rate_of(length)
  for _, rate in ipairs(RATES) do
    if length == 2430 * rate then return rate end
  end
end

function aps.dissector(buffer, packet, tree)
  local rate = rate_of(buffer:len())
  if not rate then return end
  local begin, till = 4 * 270 * rate + 3 * rate, 4 * 270 * rate + 6 * rate -- K1 and K2 are in row 5
  local k1, k2 = buffer(begin, 1), buffer(till, 1)
  local one, two = k1:uint(), k2:uint()
  local asked = CODES[math.floor(one / 16)] or "code " .. math.floor(one / 16)
  local to, from = one % 16, math.floor(two / 16)
  local way = two % 16 >= 8 and "long" or "short"
  local done = MARKS[two % 8] or "mark " .. two % 8
  local words = string.format("%s to %d from %d, %s path, %s", asked, to, from, way, done)
  local part = tree:add(aps, buffer(begin, till - begin + 1), "APS: " .. words)
  part:add(code, k1, asked)
  part:add(destination, k1, to)
  part:add(source, k2, from)
  part:add(path, k2, way)
  part:add(mark, k2, done)
  part:add(word, buffer(begin, till - begin + 1), words):set_generated()
  packet.cols.info:append(" " .. words)
end

register_postdissector(aps)
