-- Runs the programs of a file on the TMS32025 of a machine of MAME's, for runs.py: one a line, its words as ADDRESS:WORD in
-- hexadecimal, behind a blank those of data memory. Of each it writes where its registers, its stack and its data memory stand
-- two frames after the processor was let go, which is longer than a program runs.
local machine = manager.machine
local dsp = machine.devices[":dsp"]
local board = machine.devices[":maincpu"].spaces["program"]
local code, data = machine.memory.regions[":dsp"], dsp.spaces["data"]
local programs, ends = io.open(os.getenv("PROGRAMS")), io.open(os.getenv("ENDS"), "w")
local CONTROL, HELD, GOES = 0x140000, 0, 5
local REGISTERS = {"ACC", "P", "T", "AR0", "AR1", "AR2", "AR3", "AR4", "AR5", "AR6", "AR7", "STR0", "STR1", "RPTC",
                   "STK7", "STK6", "STK5", "STK4", "STK3", "STK2", "STK1", "STK0"}
local BOOTS, RUNS = 3, 2
local frames, is_running = 0, false

local function begin()
  local line = programs:read("l")
  if not line then
    ends:close()
    machine:exit()
    return
  end
  local words, memory = line:match("^(%S+) (%S+)$")
  board:write_u16(CONTROL, HELD)
  for address = 0, 0x1FF do code:write_u16(address * 2, 0) end
  for address, word in words:gmatch("(%x+):(%x+)") do code:write_u16(tonumber(address, 16) * 2, tonumber(word, 16)) end
  for address, word in memory:gmatch("(%x+):(%x+)") do data:write_u16(tonumber(address, 16), tonumber(word, 16)) end
  board:write_u16(CONTROL, GOES)
  frames, is_running = 0, true
end

local function tell()
  local told = {}
  for _, name in ipairs(REGISTERS) do told[#told + 1] = string.format("%x", dsp.state[name].value) end
  for _, range in ipairs({{0x60, 0x7F}, {0x200, 0x3FF}}) do
    for address = range[1], range[2] do told[#told + 1] = string.format("%x", data:read_u16(address)) end
  end
  ends:write(table.concat(told, " "), "\n")
end

for address = 0, 0x1FFF do code:write_u16(address * 2, 0) end
emu.register_frame_done(function()
  frames = frames + 1
  if is_running and frames >= RUNS then
    tell()
    begin()
  elseif not is_running and frames > BOOTS then
    begin()
  end
end)
