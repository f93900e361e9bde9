# total rests on the type of price. When that changes, the body of total is wrong,
# though nobody touched it: the next call is checked anew and stops.
class Shop
script main
type Shop.price : () -> Int
def Shop.price() 5 end
type Shop.total : (Int) -> Int
def Shop.total(n) n * self.price end
print Shop.new.total(3)
type Shop.price : () -> Str
def Shop.price() "five" end
print Shop.new.price
print Shop.new.total(3)
end
