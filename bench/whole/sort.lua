local size, items = 200, {}
local function filled()
  local x = 12345
  for i = 1, size do
    x = (x * 25173 + 13849) & 32767
    items[i] = x
  end
end
local function pass(count)
  for i = 1, count do
    local a, b = items[i], items[i + 1]
    if a > b then
      items[i] = b
      items[i + 1] = a
    end
  end
end
local function sorted()
  filled()
  for i = 0, size - 2 do pass(size - 1 - i) end
end
function turns(n)
  for _ = 1, n do sorted() end
end
function result()
  sorted()
  local unsorted = 0
  for i = 1, size - 1 do
    if items[i] > items[i + 1] then unsorted = unsorted - 1 end
  end
  return unsorted + items[101]
end
