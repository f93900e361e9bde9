size = 60000
class Sum
  def add(a, b)
    a + b
  end
  def run(n)
    t = 0
    while 0 < n
      t = self.add(t, n)
      n = n - 1
    end
    t
  end
end
puts Sum.new.run(size)
