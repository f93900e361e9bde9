# A check is kept until the body, its method's type, or the type of a method that it calls is given anew.
# Look at the counts in the last line: of eight calls, three enter on a check that was kept.
class Shop
script main
type Shop.price : () -> Int
def Shop.price() 5 end
type Shop.total : (Int) -> Int
def Shop.total(n) n * self.price end
print Shop.new.total(1)
print Shop.new.total(2)
def Shop.price() 6 end
print Shop.new.total(3)
type Shop.price : () -> Int
print Shop.new.total(4)
end
