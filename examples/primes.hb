# A program of a few methods: the primes below 30, with no division in the language.
class Number
script main
type Number.divides : (Int, Int) -> Bool
def Number.divides(a, b)
  m = a
  while m < b do m = m + a end
  m == b
end
type Number.is_prime : (Int) -> Bool
def Number.is_prime(n)
  found = false
  d = 2
  while d * d < n + 1 do
    if self.divides(d, n) then found = true end
    d = d + 1
  end
  not found
end
type Number.primes : (Int) -> Str
def Number.primes(below)
  list = ""
  n = 2
  while n < below do
    if self.is_prime(n) then list = list ++ " " ++ str(n) end
    n = n + 1
  end
  list
end
print "primes:" ++ Number.new.primes(30)
end
