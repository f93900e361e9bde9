# A type alone is enough for a body that calls the method, and not for the call itself.
# Look at the two places: f enters, and stops where it calls g.
class A
script main
type A.g : () -> Int
type A.f : () -> Int
def A.f() self.g end
print A.new.f
end
