# One method for each type word, and one that takes an object.
# Look at the last line: objects have no name of their own, so #<Box> is printed.
class Box
script main
type Box.twice : (Int) -> Int
def Box.twice(n) n + n end
type Box.greets : (Str) -> Str
def Box.greets(who) "hello, " ++ who end
type Box.is_small : (Int) -> Bool
def Box.is_small(n) n < 10 end
type Box.nothing : () -> Nil
def Box.nothing() end
type Box.same : (Any) -> Any
def Box.same(x) x end
type Box.other : (Box) -> Box
def Box.other(box) box end
box = Box.new
print box.twice(21)
print box.greets("bob")
print box.is_small(21)
print box.nothing
print box.same("as it came")
print box.other(Box.new)
end
