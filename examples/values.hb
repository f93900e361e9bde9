# What is printed of each value, and what the operators come to.
# Objects of one class are equal, and values of different types are not.
class A
script main
x = 7
print x * 6 - 2
print 2 < x
print "text"
print "x is " ++ str(x)
print nil
print A.new
print "1" == 1
print A.new == A.new
print not nil
end
