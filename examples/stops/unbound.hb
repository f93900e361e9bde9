# In a script a variable has a value from its first assignment on. y has none.
script main
x = 1
print x
print y
end
