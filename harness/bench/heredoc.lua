-- samples/heredoc: as the LPeg manual has Lua's long strings. The latest group `close` is the name behind the nearest `cat <<`, and LPeg drops
-- it itself when the name never comes again.
local lpeg = require "lpeg"
local C, Cb, Cg, Cmt, P, R = lpeg.C, lpeg.Cb, lpeg.Cg, lpeg.Cmt, lpeg.P, lpeg.R

local name = R"AZ"^1
local line = (1 - P"\n")^0 * "\n"

local function same(_, _, found, wanted) return found == wanted end

local close = Cmt(C(name) * "\n" * Cb"close", same)
local here = "cat <<" * Cg(name, "close") * "\n" * (line - close)^0 * close

return (here + line)^0 * -1
