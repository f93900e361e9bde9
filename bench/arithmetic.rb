size = 60000
class Loop
  def run(n)
    t = 0
    while 0 < n
      t = t + n * 2 - 1
      n = n - 1
    end
    t
  end
end
puts Loop.new.run(size)
