# Four scripts call, define and change one pair of methods. bench/races looks at it.
class A
setup
type A.g : (Int) -> Int
def A.g(n) n + 1 end
type A.f : (Int) -> Int
def A.f(n) self.g(n) + self.g(n) end
end
script one
i = 0
while i < 200 do A.new.f(i); i = i + 1 end
end
script two
i = 0
while i < 200 do type? A.g : (Int) -> Int; i = i + 1 end
end
script three
i = 0
while i < 200 do def A.g(n) n + 2 end; A.new.f(i); i = i + 1 end
end
script four
i = 0
while i < 200 do A.new.g(i); type? A.f : (Int) -> Int; i = i + 1 end
end
