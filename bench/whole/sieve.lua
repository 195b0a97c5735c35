local size, flags = 8190, {}
local function sieve()
  for i = 0, size - 1 do flags[i] = 1 end
  local count = 0
  for i = 0, size - 1 do
    if flags[i] ~= 0 then
      local prime = i + i + 3
      local at = prime + i
      while at < size do
        flags[at] = 0
        at = at + prime
      end
      count = count + 1
    end
  end
  return count
end
function turns(n)
  for _ = 1, n do sieve() end
end
function result() return sieve() end
