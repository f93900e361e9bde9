# The body of f rests on the type of g. While f runs, that type is in use and cannot change.
class A
script main
type A.g : () -> Int
def A.g() 1 end
type A.f : () -> Int
def A.f() type A.g : () -> Str; self.g end
print A.new.f
end
