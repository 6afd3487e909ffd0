-- samples/indentation: how many blanks the open bodies stand behind is kept in a Lua table. A body that began and fails makes the whole text
-- fail, so nothing has to be put back then.
local lpeg = require "lpeg"
local Cmt, Cp, P, R, S, V = lpeg.Cmt, lpeg.Cp, lpeg.P, lpeg.R, lpeg.S, lpeg.V

local name = R"az"^1
local blanks = Cp() * P" "^0

local widths

local function begin()
  widths = {}
  return true
end

-- The outermost body stands behind no blanks, every other behind more than the one around it.
local function enter(_, after, before)
  local around = widths[#widths]
  if around == nil then
    widths[1] = 0
    return after == before
  end
  if after - before <= around then return false end
  widths[#widths + 1] = after - before
  return true
end

local function same(_, after, before) return after - before == widths[#widths] end

local function leave()
  widths[#widths] = nil
  return true
end

-- Only between parentheses may a line end stand among the words, and words stand nowhere else.
local words = (R"az" + S" \n")^0

return P{
  "program",
  program = P(begin) * V"body" * -1,
  body = Cmt(blanks, enter) * V"statement" * (Cmt(blanks, same) * V"statement")^0 * P(leave),
  statement = V"test" + V"plain",
  test = "if " * name * ":\n" * V"body",
  plain = name * ("(" * words * ")")^-1 * "\n",
}
