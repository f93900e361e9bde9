# The second script gives price its type anew between the two calls of the first one. So what that
# one has kept agrees no more: all four calls are checked, and without the turns two would not be.
class Shop
setup
type Shop.price : () -> Int
def Shop.price() 5 end
type Shop.total : () -> Int
def Shop.total() self.price end
end
script one
print Shop.new.total
print Shop.new.total
end
script two
type Shop.price : () -> Int
end
