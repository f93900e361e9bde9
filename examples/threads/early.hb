# Without an order scripts run at once. Each of these calls what the other one defines.
# One of them may call too soon, and never both: the first call comes behind a definition.
class A
setup
type A.left : () -> Str
type A.right : () -> Str
end
script one
def A.left() "from one" end
print A.new.right
end
script two
def A.right() "from two" end
print A.new.left
end
