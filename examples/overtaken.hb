# A call takes the body that stands when its last argument is there. The first call has begun as the
# second script gives greet a newer body, and takes that; the body that runs then goes on as it is.
class A
setup
type A.greet : (Str) -> Str
def A.greet(x) "hello " ++ x end
end
script one
print A.new.greet("ann")
print A.new.greet("bob")
end
script two
def A.greet(x) "good day, " ++ x end
def A.greet(x) "good night, " ++ x end
end
