-- Executes one instruction of MAME's 68HC11 core for each state and writes what it answers.
-- The files are named by the environment: STATES (states.py writes it) and ANSWERS. A line of ANSWERS for each line of
-- STATES:
--   AFTER CYCLES W ADDRESSBYTE ...
-- as gnu_driver.c prints, the written bytes in MAME's order of writes.
--
-- The machine runs under MAME's debugger without a window (-debug -debugger none). Where the debugger stops, MAME calls
-- the function given to register_periodic: the instruction asked for is done, its answer is taken and the next state is
-- put in.
-- Memory is a table of this script: a read tap over all 65,536 addresses gives every byte read, a write tap takes every
-- byte written.
-- MAME's branches count from where it saw the instruction start, which is before the debugger stops there. So a JMP of
-- ours to the state's PC is done first, and only then is the state put in.

local BACKGROUND = 0x3C
local CYCLE = 500000000000 -- attoseconds: the machine's crystal of 8 MHz makes 2 million cycles a second

local machine = manager.machine
local cpu = machine.devices[":maincpu"]
local state = cpu.state
local states = assert(io.open(os.getenv("STATES"), "r"))
local answers = assert(io.open(os.getenv("ANSWERS"), "w"))

local memory, written = {}, {}
local started, line -- when the instruction began, and its state
local phase -- "jumping" or "executing", after the last state "finished"
local unlisted -- an address that an instruction read and its state does not list

local taps = {
	cpu.spaces["program"]:install_read_tap(0, 0xFFFF, "read", function(address)
		local byte = memory[address]
		if phase == "executing" and not byte then
			unlisted = address
		end
		return byte or BACKGROUND
	end),
	cpu.spaces["program"]:install_write_tap(0, 0xFFFF, "write", function(address, value)
		memory[address] = value
		for _, earlier in ipairs(written) do
			if earlier == address then
				return
			end
		end
		written[#written + 1] = address
	end),
}

local function now()
	local time = machine.time
	return time.seconds * 1000000000000000000 + time.attoseconds
end

local function bytes_of(text)
	local r = {}
	for byte in text:gmatch("%x%x") do
		r[#r + 1] = tonumber(byte, 16)
	end
	assert(#r == 11, text)
	return r
end

local function jump()
	local r = bytes_of(line:match("^%x+ (%x+)"))
	memory = { [0x4000] = 0x7E, [0x4001] = r[9], [0x4002] = r[10] }
	state["PC"].value = 0x4000
end

local function put_in()
	local before, cells = line:match("^%x+ (%x+) %x+ (.*)$")
	local r = bytes_of(before)
	assert(state["PC"].value == 256 * r[9] + r[10])
	state["A"].value, state["B"].value = r[1], r[2]
	state["IX"].value, state["IY"].value = 256 * r[3] + r[4], 256 * r[5] + r[6]
	state["SP"].value, state["CCR"].value = 256 * r[7] + r[8], r[11]
	memory, written = {}, {}
	for address, value in cells:gmatch("(%x%x%x%x)(%x%x)") do
		memory[tonumber(address, 16)] = tonumber(value, 16)
	end
	started = now()
end

local function answer()
	local spent = now() - started
	assert(spent % CYCLE == 0)
	assert(not unlisted, "a byte is read that is not listed: " .. line)
	answers:write(string.format("%02X%02X%04X%04X%04X%04X%02X %d %02X", state["A"].value, state["B"].value,
		state["IX"].value, state["IY"].value, state["SP"].value, state["PC"].value, state["CCR"].value,
		spent // CYCLE, #written))
	for _, address in ipairs(written) do
		answers:write(string.format(" %04X%02X", address, memory[address]))
	end
	answers:write("\n")
end

local function finish()
	phase = "finished"
	states:close()
	answers:close()
	for _, tap in ipairs(taps) do
		tap:remove()
	end
	machine:exit()
end

-- What is to be done where the debugger stops.
local function turn()
	if phase == "jumping" then
		put_in()
		phase = "executing"
	else
		if phase == "executing" then
			answer()
		end
		line = states:read("l")
		if not line then
			finish()
			return
		end
		jump()
		phase = "jumping"
	end
	cpu.debug:step(1)
end

emu.register_periodic(function()
	if phase == "finished" or machine.debugger.execution_state ~= "stop" then
		return
	end
	local done, message = pcall(turn)
	if not done then
		print(message)
		finish()
	end
end)
