# The names of methods can be computed: a loop gives A the methods get_1, get_2 and get_3.
# The body is the same text each time, and i is not known in it: a body has its own variables.
class A
script main
i = 1
while i < 4 do
  type A.("get_" ++ str(i)) : () -> Int
  def A.("get_" ++ str(i))() 7 end
  i = i + 1
end
print A.new.get_2
print A.new.get_1 + A.new.get_3
end
