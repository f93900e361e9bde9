# A method gets a type, then a body, and is called.
class A
script main
type A.hi : (Str) -> Str
def A.hi(x) "hi " ++ x end
print A.new.hi("bob")
end
