# A book belongs to what it is told to: belongs_to types and defines accessors whose names it computes.
# Look at shelf: it calls two methods that stand nowhere in the text, and is checked when they are there.
class Author
class Book
script main
type Author.name : () -> Str
def Author.name() "ursula" end
type Book.belongs_to : (Str) -> Nil
def Book.belongs_to(name)
  type Book.(name) : () -> Author
  def Book.(name)() Author.new end
  type Book.("is_by_" ++ name) : (Author) -> Bool
  def Book.("is_by_" ++ name)(other) other == Author.new end
end
type Book.shelf : () -> Str
def Book.shelf() if self.is_by_writer(self.writer) then self.writer.name else "no name" end end
Book.new.belongs_to("writer")
print Book.new.shelf
print Book.new.is_by_writer(nil)
end
