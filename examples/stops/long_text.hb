# A text has at most 1,024 bytes. This one doubles until it would have more.
class A
script main
type A.doubled : (Str, Int) -> Str
def A.doubled(text, times)
  while 0 < times do text = text ++ text; times = times - 1 end
  text
end
print A.new.doubled("ab", 5)
print A.new.doubled("ab", 10)
end
