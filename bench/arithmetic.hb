# A loop of arithmetic in one body: 15 steps a turn.
class Loop
script main
size = 60000
type Loop.run : (Int) -> Int
def Loop.run(n)
  t = 0
  while 0 < n do
    t = t + n * 2 - 1
    n = n - 1
  end
  t
end
print Loop.new.run(size)
end
