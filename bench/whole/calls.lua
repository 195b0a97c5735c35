local function nothing() end
local function eight()
  nothing() nothing() nothing() nothing() nothing() nothing() nothing() nothing()
end
function turns(n)
  for _ = 1, n do
    for _ = 1, 1000 do eight() end
  end
end
function result() return 8000 end
