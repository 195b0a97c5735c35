local self = {}
self.fib = function(n)
  if n < 2 then return n end
  return self.fib(n - 1) + self.fib(n - 2)
end
function turns(n)
  for _ = 1, n do self.fib(20) end
end
function result() return self.fib(20) end
