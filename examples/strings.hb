# Texts are joined by ++, and str makes a text of any value.
# A print is one line, so line feeds, tabs and backslashes are written as \n, \t and \\.
class A
script main
type A.line : (Str, Int) -> Str
def A.line(name, count) name ++ ":\t" ++ str(count) ++ "\n" end
print A.new.line("apples", 3) ++ A.new.line("pears", 12)
print "she said \"no\", and typed a \\"
print str(nil) ++ ", " ++ str(true) ++ ", " ++ str(A.new)
print "" == str("")
end
