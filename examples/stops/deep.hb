# At most 4,096 calls may be open inside one another. This one needs one more.
class A
script main
type A.down : (Int) -> Int
def A.down(n) if n == 0 then 0 else self.down(n - 1) end end
print A.new.down(4095)
print A.new.down(4096)
end
