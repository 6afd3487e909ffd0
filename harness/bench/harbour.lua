-- samples/harbour: a name of letters A to Z, then `=`, then the same name.
local lpeg = require "lpeg"
local C, Cmt, R = lpeg.C, lpeg.Cmt, lpeg.R

local name = C(R"AZ"^1)

local function same(_, _, first, second) return first == second end

return Cmt(name * "=" * name, same)
