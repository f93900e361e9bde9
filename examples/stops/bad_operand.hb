# Code of a script is not checked before it runs, so a sum of an Int and a Str stops when it is met.
script main
print 1 + 2
print 1 + "2"
end
