# A newer body and a newer type count from the next call on, and each such call is checked anew.
# The last call stops: its argument is a text, and greet takes an Int by then.
class A
script main
type A.greet : (Str) -> Str
def A.greet(x) "hello " ++ x end
print A.new.greet("ann")
def A.greet(x) "good day, " ++ x end
print A.new.greet("ann")
type A.greet : (Int) -> Str
def A.greet(x) "guest number " ++ str(x) end
print A.new.greet(5)
print A.new.greet("ann")
end
