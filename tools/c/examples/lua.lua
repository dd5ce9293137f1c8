-- Some of what Lua has, with one output wherever it runs.
print(_VERSION, math.maxinteger, 7 // -2, 7 % -2, 3 | 8, 7 / 2)

local text = "the quick brown fox"
print((text:gsub("%w+", function(word) return word:sub(1, 1):upper() .. word:sub(2) end)))
print(string.format("%5d|%-5d|%x|%q|%.2f", 42, 42, 255, "a\nb", 7 / 2))

local list = {}
for i = 1, 8 do list[i] = i * 21 % 19 end
table.sort(list, function(a, b) return a > b end)
print(table.concat(list, " "), #list)

local vectors = {}
function vectors.__add(a, b) return a.x + b.x end
print(setmetatable({x = 40}, vectors) + {x = 2})

local function move(discs, from, to, over)
  if discs == 0 then return end
  move(discs - 1, from, over, to)
  coroutine.yield(from .. to)
  move(discs - 1, over, to, from)
end
for step in coroutine.wrap(function() move(3, "a", "c", "b") end) do print(step) end

print(pcall(function() return list.nothing.field end))
print(utf8.char(955), select(2, pcall(error, {code = 7})).code)
