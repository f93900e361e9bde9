# Texts that grow byte by byte up to 1,000: 11018 steps a turn.
class Text
script main
size = 80
type Text.grow : (Int) -> Str
def Text.grow(n)
  s = ""
  while 0 < n do
    s = s ++ "x"
    n = n - 1
  end
  s
end
i = 0
while i < size do
  s = Text.new.grow(1000)
  i = i + 1
end
print s
end
