size = 25
class Deep
  def down(n)
    if n == 0 then 0 else self.down(n - 1) end
  end
end
# mruby has too few frames: there the same calls are ten times as many and a tenth as deep.
times, depth = RUBY_ENGINE == "mruby" ? [10, 400] : [1, 4000]
i = 0
r = nil
while i < size * times
  r = Deep.new.down(depth)
  i = i + 1
end
puts r
