# A computed name must be a name: "9x" begins with a digit.
class A
script main
type A.("x9") : () -> Int
type A.("9x") : () -> Int
end
