local size = 60000
local Sum = {}
Sum.__index = Sum
function Sum:add(a, b)
  return a + b
end
function Sum:run(n)
  local t = 0
  while 0 < n do
    t = self:add(t, n)
    n = n - 1
  end
  return t
end
print(setmetatable({}, Sum):run(size))
