# A loop of calls: 15 steps a turn.
class Sum
script main
size = 60000
type Sum.add : (Int, Int) -> Int
def Sum.add(a, b) a + b end
type Sum.run : (Int) -> Int
def Sum.run(n)
  t = 0
  while 0 < n do
    t = self.add(t, n)
    n = n - 1
  end
  t
end
print Sum.new.run(size)
end
