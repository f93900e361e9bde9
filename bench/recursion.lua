local size = 25
local Deep = {}
Deep.__index = Deep
function Deep:down(n)
  local r
  if n == 0 then r = 0 else r = self:down(n - 1) end
  return r
end
local i, r = 0, nil
while i < size do
  r = setmetatable({}, Deep):down(4000)
  i = i + 1
end
print(r)
