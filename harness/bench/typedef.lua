-- samples/typedef: the names of types stand in a Lua table, looked up by their text; a scope takes its own away again when it is closed. A
-- declaration that has stored a name or opened a scope is never tried in another way, so nothing has to be put back after a failure.
local lpeg = require "lpeg"
local C, Cmt, P, R, V = lpeg.C, lpeg.Cmt, lpeg.P, lpeg.R, lpeg.V

local rest = R("az", "09") + "_"
local name = R"az" * rest^0

local how_often, names, scopes

local function begin()
  how_often, names, scopes = {}, {}, {}
  return true
end

local function store(_, _, new)
  how_often[new] = (how_often[new] or 0) + 1
  names[#names + 1] = new
  return true
end

local function known(_, _, used) return (how_often[used] or 0) > 0 end

local function open()
  scopes[#scopes + 1] = #names
  return true
end

local function close()
  for i = #names, table.remove(scopes) + 1, -1 do
    how_often[names[i]] = how_often[names[i]] - 1
    names[i] = nil
  end
  return true
end

return P{
  "program",
  program = P(begin) * V"declaration"^0 * -1,
  declaration = V"typedef" + V"scope" + V"variable",
  typedef = "typedef " * V"type" * " " * Cmt(C(name) * ";\n", store),
  scope = "{\n" * P(open) * V"declaration"^0 * "}\n" * P(close),
  variable = V"type" * " " * name * ";\n",
  type = P"int" * -rest + P"char" * -rest + Cmt(C(name), known),
}
