-- samples/tags: the two names of an element are its only captures, for a match-time capture gives up those inside it.
local lpeg = require "lpeg"
local C, Cmt, P, R, V = lpeg.C, lpeg.Cmt, lpeg.P, lpeg.R, lpeg.V

local name = C(R"az"^1)
local text = (1 - P"<")^1

local function same(_, _, open, close) return open == close end

return P{
  "document",
  document = V"element" * "\n" * -1,
  element = Cmt("<" * name * ">" * V"inner" * "</" * name * ">", same),
  inner = (text + V"element")^0,
}
