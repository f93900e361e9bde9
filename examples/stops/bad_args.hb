# A call in a script tests its arguments by the method's type: a Str is due, and 3 is an Int.
class A
script main
type A.hi : (Str) -> Str
def A.hi(x) "hi " ++ x end
print A.new.hi(3)
end
