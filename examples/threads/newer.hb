# A call takes the body that stands as it is decided, whichever script gave it.
class A
setup
type A.name : () -> Str
def A.name() "old" end
end
script one
print A.new.name
end
script two
def A.name() "new" end
end
