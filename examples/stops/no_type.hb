# The type comes after the call, and that is too late. The def itself is no fault.
class A
script main
def A.hi(x) "hi " ++ x end
print A.new.hi("bob")
type A.hi : (Str) -> Str
end
