# Calls inside one another, 4,000 deep: 36016 steps a turn.
class Deep
script main
size = 25
type Deep.down : (Int) -> Int
def Deep.down(n) if n == 0 then 0 else self.down(n - 1) end end
i = 0
while i < size do
  r = Deep.new.down(4000)
  i = i + 1
end
print r
end
