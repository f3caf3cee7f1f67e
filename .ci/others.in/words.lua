-- Counts words of a text in the program, and a few things of the language and its libraries.
local text = [[the quick brown fox jumps over the lazy dog and the dog barks at the quick fox]]
local counts, names = {}, {}
for word in text:gmatch("%a+") do
    counts[word] = (counts[word] or 0) + 1
    if counts[word] == 1 then names[#names + 1] = word end
end
table.sort(names)
for _, name in ipairs(names) do io.write(name, " ", counts[name], "\n") end
local function fib(n) return n < 2 and n or fib(n - 1) + fib(n - 2) end
print(fib(16), 1 / 3, 7 // 2, -7 % 3, 2 ^ 0.5, 1e15, string.format("%5.2f|%-5s|%05d|%q", 3.14159, "ab", 42, "x\ny"))
print(pcall(error, { code = 3 }), select("#", table.unpack({ 1, 2, 3 })), tostring(nil), #"four")
local routine = coroutine.wrap(function() for k = 1, 3 do coroutine.yield(k * k) end end)
print(routine(), routine(), routine())
local point = setmetatable({ x = 1 }, { __index = function(_, key) return key .. "?" end, __call = function(_, n) return n + 1 end })
print(point.x, point.y, point(41), io.open("/nowhere/at/all"))
print(("hello"):upper():rep(2, "-"), ("a,b,,c"):gsub(",", ";"), math.maxinteger, math.type(1.0), string.byte("A"))
print(load("return 1 + 1")(), utf8 and utf8.char(228, 8364), os.getenv("NOBODY"), string.pack("<i4", 7):byte(1, -1))
goto done
print("not reached")
::done::
collectgarbage()
print(collectgarbage("count") > 0)
