# Two scripts take turns. With --order=12 each gives a body before the other one calls it.
# With --order=1111 the first one calls too soon, and with --order=2222 the second one.
class A
setup
type A.left : () -> Str
type A.right : () -> Str
end
script one
def A.left() "from one" end
print A.new.right
end
script two
def A.right() "from two" end
print A.new.left
end
