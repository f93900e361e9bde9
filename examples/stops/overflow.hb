# Numbers end at 9223372036854775807. A sum, a difference or a product beyond it stops.
class A
script main
type A.doubled : (Int, Int) -> Int
def A.doubled(n, times)
  while 0 < times do n = n + n; times = times - 1 end
  n
end
print A.new.doubled(1, 62)
print A.new.doubled(1, 63)
end
