-- samples/bulletin: the long form, else the short one. The berths of the long form are captures, so LPeg drops them itself when that form is
-- given up; FIRST alone looks at them. The short form opens no berth, so there FIRST can never stand.
local lpeg = require "lpeg"
local C, Cb, Cg, Cmt, Ct, P, R = lpeg.C, lpeg.Cb, lpeg.Cg, lpeg.Cmt, lpeg.Ct, lpeg.P, lpeg.R

local digits = R"09"^1
local berth = R"AZ" * digits
local draft = digits * "." * R"09"
local remark = (P" " * R" ~"^0)^-1

local function listed(_, _, open, name)
  for _, berth in ipairs(open) do
    if berth == name then return true end
  end
  return false
end

local head = "BULLETIN " * R"AZ"^1 * "\n"
local first = ("FIRST " * Cmt(Cb"open" * C(berth), listed) * "\n")^-1
local last = P"END\n" * -1
local long_line = C(berth) * " " * draft * remark * "\n"
local short_line = berth * remark * "\n"

local long = head * Cg(Ct(long_line^1), "open") * first * last
local short = head * short_line^1 * last

return long + short
