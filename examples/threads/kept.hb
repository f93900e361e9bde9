# The second script changes a type on which each call of the first one rests, or cannot.
class A
setup
type A.g : () -> Int
def A.g() 1 end
type A.f : () -> Int
def A.f() self.g end
end
script one
i = 0
while i < 1000 do
  A.new.f
  i = i + 1
end
end
script two
print type? A.g : () -> Int
end
