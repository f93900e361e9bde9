# A while in a method: the sum of the numbers from 1 to n.
# Variables keep their values behind the loop, and a loop itself is nil.
class A
script main
type A.sum : (Int) -> Int
def A.sum(n)
  total = 0
  while 0 < n do
    total = total + n
    n = n - 1
  end
  total
end
print A.new.sum(10)
print A.new.sum(100)
i = 0
print while i < 3 do print i; i = i + 1 end
print i
end
