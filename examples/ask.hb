# A type is in use while a body that rests on it runs. type? tries to change it, and tells
# whether it did: false inside of f, whose body calls g, and true when f has ended.
class A
script main
type A.g : () -> Int
def A.g() 1 end
type A.f : () -> Int
def A.f() print type? A.g : () -> Str; self.g end
print A.new.f
print type? A.g : () -> Str
def A.g() "one" end
print A.new.g
end
