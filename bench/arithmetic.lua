local size = 60000
local Loop = {}
Loop.__index = Loop
function Loop:run(n)
  local t = 0
  while 0 < n do
    t = t + n * 2 - 1
    n = n - 1
  end
  return t
end
print(setmetatable({}, Loop):run(size))
