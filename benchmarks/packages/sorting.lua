-- Sorts numbers and words, and formats what comes out.
local function shuffled(count)
  local numbers = {}
  for i = 1, count do numbers[i] = i * 7919 % 1009 end
  return numbers
end

local numbers = shuffled(400)
table.sort(numbers)
print(table.concat(numbers, " ", 1, 10))

local words = {}
for word in ("the quick brown fox jumps over the lazy dog"):gmatch("%a+") do
  words[#words + 1] = string.format("%-6s|%d", word:upper(), #word)
end
table.sort(words, function(one, other) return one > other end)
print(table.concat(words, ","))
