local function empty()
  for _ = 1, 30000 do end
end
function turns(n)
  for _ = 1, n do empty() end
end
function result() return 30000 end
