# nil fits every type, as argument and as result.
# It is false in a condition, as false is; 0 and "" are true.
class Cat
script main
type Cat.name : (Int) -> Str
def Cat.name(n) if n == 1 then "tom" else nil end end
type Cat.called : (Str) -> Str
def Cat.called(name) if name then "called " ++ name else "not called" end end
print Cat.new.name(2)
print Cat.new.called(Cat.new.name(1))
print Cat.new.called(Cat.new.name(2))
print if 0 then "0 is true" end
print if "" then "the empty text is true" end
print if nil then 1 end
end
