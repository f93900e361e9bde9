# With --versions=1 a method's type may be given once, and its body once: the second type is worn.
class A
script main
type A.g : () -> Int
def A.g() 1 end
print A.new.g
type A.g : () -> Str
end
