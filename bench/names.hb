# Four scripts make names, most of which another makes too, until the list is full. bench/races looks at it.
class A
script one
i = 0
while i < 300 do type A.("m" ++ str(i)) : () -> Int; def A.("m" ++ str(i))() 1 end; i = i + 1 end
A.new.m7
end
script two
i = 299
while 0 < i do type? A.("m" ++ str(i)) : () -> Int; def A.("m" ++ str(i))() 2 end; i = i - 1 end
A.new.m7
end
script three
i = 0
while i < 400 do def A.("p" ++ str(i))() 3 end; i = i + 1 end
end
script four
i = 0
while i < 400 do def A.("q" ++ str(i))() 4 end; i = i + 1 end
end
