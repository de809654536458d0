-- Has MAME's debugger print each of the 65,536 first words of an instruction, with 1234h behind it, into files of the folder FOLDER:
-- of each program memory full of them one file, named for the first word in it. For words.py.
local machine = manager.machine
local code = machine.memory.regions[":dsp"]
local EACH, NOP, BEHIND = 2730, 0x5500, 0x1234

for first = 0, 0xFFFF, EACH do
  for address = 0, 0x1FFF do code:write_u16(address * 2, NOP) end
  for at = 0, math.min(EACH, 0x10000 - first) - 1 do
    code:write_u16(at * 6, first + at)
    code:write_u16(at * 6 + 2, BEHIND)
  end
  machine.debugger:command(string.format("dasm %s/%d,0,1ffe,1,:dsp", os.getenv("FOLDER"), first))
end
machine:exit()
