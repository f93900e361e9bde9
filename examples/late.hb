# A body is checked when it is called and not before: area stands before what it calls.
# Look at side: its type comes last, and any time before the call is soon enough.
class Square
script main
def Square.area() self.side * self.side end
type Square.area : () -> Int
def Square.side() 12 end
type Square.side : () -> Int
print Square.new.area
end
