local size = 80
local Text = {}
Text.__index = Text
function Text:grow(n)
  local s = ""
  while 0 < n do
    s = s .. "x"
    n = n - 1
  end
  return s
end
local i, s = 0, nil
while i < size do
  s = setmetatable({}, Text):grow(1000)
  i = i + 1
end
print(s)
