# A run knows at most 1,024 names of methods. The loop uses them all, and A.n is one more.
class A
script main
i = 0
while i < 1024 do
  def A.("m" ++ str(i))() 0 end
  i = i + 1
end
def A.m0() 1 end
def A.n() 1 end
end
