# nil fits the type B, so the call of f enters. But nil has no methods, and x.m stops.
class A
class B
script main
type B.m : () -> Int
def B.m() 1 end
type A.f : (B) -> Int
def A.f(x) x.m end
print A.new.f(B.new)
print A.new.f(nil)
end
