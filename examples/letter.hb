# A line goes on behind a mark that wants more, and a ; stands for a line feed.
class Letter
script post
type Letter.line : (Str, Str, Str) -> Str
def Letter.line(to, from, word) "dear " ++ to ++ ", " ++ word ++ " " ++ to ++
    ", yours " ++ from end
print Letter.new.line("ann", "bob", "good night")
type Letter.seal : () -> Str; def Letter.seal() "sealed" end; print Letter.new.seal()
end
