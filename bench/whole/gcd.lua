local function gcd(a, b)
  while b ~= 0 do a, b = b, a % b end
  return a
end
local function gcds()
  local sum = 0
  for j = 1, 99 do
    for i = 1, 99 do sum = sum + gcd(j * 97, i * 89) end
  end
  return sum
end
function turns(n)
  for _ = 1, n do gcds() end
end
function result() return gcds() & 32767 end
