# A method may call itself, and two may call each other: only types must be known at a call.
# Look at the last line of the report: each call counts, the inner ones too.
class Math
class Even
class Odd
script main
type Math.fact : (Int) -> Int
def Math.fact(n) if n < 2 then 1 else n * self.fact(n - 1) end end
print Math.new.fact(20)
type Even.test : (Int) -> Bool
type Odd.test : (Int) -> Bool
def Even.test(n) if n == 0 then true else Odd.new.test(n - 1) end end
def Odd.test(n) if n == 0 then false else Even.new.test(n - 1) end end
print Even.new.test(10)
print Even.new.test(7)
end
