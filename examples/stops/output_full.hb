# What a script prints ends at 1,048,576 bytes: a line of 1,024 bytes, again and again, is too much.
# The report is long, so only its last lines stand beside this file.
script main
line = "sixteen bytes, ."
i = 0
while i < 6 do line = line ++ line; i = i + 1 end
while true do print line end
end
