# The setup runs first and alone. The types and bodies that it gives, each script has.
# Look at the counts: a check is kept by the one who made it, so each checks hi for itself.
class A
setup
name = "setup"
type A.hi : (Str) -> Str
def A.hi(x) "hi " ++ x end
print A.new.hi(name)
end
script one
print A.new.hi("bob")
end
script two
print A.new.hi("ann")
print A.new.hi("eve")
end
