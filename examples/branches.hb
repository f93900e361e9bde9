# An if is an expression. The checker knows of it what both branches have in common.
# Look at label: its branches are an Int and a Str, so its type is Any, and str makes it a Str.
class A
script main
type A.size : (Int) -> Str
def A.size(n) if n < 10 then "small" else "big" end end
type A.label : (Int) -> Str
def A.label(n) str(if n == 0 then "none" else n end) end
print A.new.size(3)
print A.new.size(30)
print A.new.label(0)
print A.new.label(5)
end
