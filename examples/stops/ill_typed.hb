# Branches of two types: what is known of x is Any, so x + 1 is not allowed.
# Two places are told: that of the call, and that of the fault in the body.
class A
script main
type A.f : (Bool) -> Int
def A.f(c) x = if c then 1 else "a" end; x + 1 end
print A.new.f(true)
end
