# A type is in use while a body of any script rests on it. After three turns of the first script
# its call of f is open, and the second one cannot change the type of g, on which f rests.
class A
setup
type A.g : () -> Int
def A.g() 1 end
type A.f : () -> Int
def A.f() self.g end
end
script one
print A.new.f
end
script two
print type? A.g : () -> Str
type A.g : () -> Str
end
