# A loop without an end stops after 1,000,000 steps. Each expression that begins is a step.
script main
print "it begins"
while true do end
end
