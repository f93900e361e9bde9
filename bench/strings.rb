size = 80
class Text
  def grow(n)
    s = ""
    while 0 < n
      s = s + "x"
      n = n - 1
    end
    s
  end
end
i = 0
s = nil
while i < size
  s = Text.new.grow(1000)
  i = i + 1
end
puts s
