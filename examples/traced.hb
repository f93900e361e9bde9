# With --trace each act at the tables has a line behind the report: which caller did what to which method.
# Look at the line with busy: the second script may not change the type of g, which a call of the first one holds.
class A
setup
type A.g : () -> Int
def A.g() 1 end
type A.f : () -> Int
def A.f() self.g end
end
script one
print A.new.f
end
script two
print type? A.g : () -> Int
end
