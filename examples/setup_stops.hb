# Where the setup stops no script runs, and its section is the whole report.
class A
setup
type A.hi : () -> Str
print "a type alone"
print A.new.hi
def A.hi() "hi" end
end
script main
print "never"
end
