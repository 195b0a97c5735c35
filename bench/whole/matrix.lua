local size, a, b, c = 20, {}, {}, {}
for i = 0, 399 do
  a[i] = i & 7
  b[i] = i & 5
end
local function dot(row, column)
  local sum = 0
  for _ = 1, size do
    sum = sum + a[row] * b[column]
    row = row + 1
    column = column + size
  end
  return sum
end
local function line(row)
  for i = 0, size - 1 do c[row + i] = dot(row, i) end
end
local function multiplied()
  for i = 0, size - 1 do line(size * i) end
end
function turns(n)
  for _ = 1, n do multiplied() end
end
function result()
  multiplied()
  local sum = 0
  for i = 0, 399 do sum = (sum + c[i]) & 32767 end
  return sum
end
