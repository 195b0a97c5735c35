local self = {}
local function deferred(n) return self.fib(n) end
self.fib = function(n)
  if n < 2 then return n end
  return deferred(n - 1) + deferred(n - 2)
end
function turns(n)
  for _ = 1, n do self.fib(20) end
end
function result() return self.fib(20) end
