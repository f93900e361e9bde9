# A record's fields are declared while the program runs: number and text each make a getter of their type.
# Look at sum: it adds as long as its fields are numbers, and is refused when one was declared anew as a text.
class Row
script main
type Row.number : (Str) -> Nil
def Row.number(name)
  type Row.(name) : () -> Int
  def Row.(name)() 7 end
end
type Row.text : (Str) -> Nil
def Row.text(name)
  type Row.(name) : () -> Str
  def Row.(name)() "seven" end
end
type Row.sum : () -> Int
def Row.sum() self.c1 + self.c2 + self.c3 end
row = Row.new
i = 1
while i < 4 do
  row.number("c" ++ str(i))
  i = i + 1
end
print row.sum
row.text("c2")
print row.c2
print row.sum
end
