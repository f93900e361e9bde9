# self is the object whose method runs. A script is no method.
class A
script main
type A.me : () -> A
def A.me() self end
print A.new.me
print self
end
