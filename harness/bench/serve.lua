-- Runs the LPeg grammars of this folder for the bench, which writes a line for each thing it wants and reads a line for each answer:
--   version                      Lua's and LPeg's
--   accepts GRAMMAR FILE         yes if the grammar takes the whole file, else no
--   time GRAMMAR FILE COUNT      the processor time, in nanoseconds, of COUNT matches of the whole file
--   time_failing ..              the same, for a file that the grammar does not take
-- The words of a line are parted by tabs.
local folder = arg[0]:match("^(.*)/") or "."
package.path = folder .. "/?.lua;" .. package.path

local lpeg = require "lpeg"
local match = lpeg.match

local texts = {}

local function text(file)
  if not texts[file] then
    local from = assert(io.open(file, "rb"))
    texts[file] = from:read("a")
    from:close()
  end
  return texts[file]
end

local function accepts(grammar, file)
  return match(grammar, text(file)) == #text(file) + 1
end

-- The answer of every match is looked at; a text that is not taken as a whole gives no time.
local function time(grammar, file, count)
  local subject = text(file)
  local behind = #subject + 1
  local begin = os.clock()
  for _ = 1, count do
    if match(grammar, subject) ~= behind then error("not taken as a whole: " .. file) end
  end
  return (os.clock() - begin) * 1e9
end

-- As `time`, for a text that the grammar does not take.
local function time_failing(grammar, file, count)
  local subject = text(file)
  local begin = os.clock()
  for _ = 1, count do
    if match(grammar, subject) then error("taken: " .. file) end
  end
  return (os.clock() - begin) * 1e9
end

local function version()
  local number = lpeg.version
  if type(number) == "function" then number = number() end
  return _VERSION .. ", LPeg " .. number
end

local function answer(order, name, file, count)
  if order == "version" then return version() end
  local grammar = require(name)
  if order == "accepts" then return accepts(grammar, file) and "yes" or "no" end
  local measure = order == "time" and time or time_failing
  return string.format("%.0f", measure(grammar, file, tonumber(count)))
end

io.stdout:setvbuf "line"
for line in io.lines() do
  local words = {}
  for word in line:gmatch "[^\t]+" do words[#words + 1] = word end
  print(answer(table.unpack(words)))
end
