local function scaled(x)
  x = x * 330 // 4096 - 50
  if x < 0 then x = 0 end
  if x > 500 then x = 500 end
  return x
end
local function readings()
  local sum = 0
  for i = 0, 999 do sum = sum + scaled(i * 7) end
  return sum
end
function turns(n)
  for _ = 1, n do readings() end
end
function result() return readings() & 32767 end
