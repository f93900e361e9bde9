# def and type are expressions that run, in a method too: learn gives its class a new method.
# Look at speak: it has no body before learn has run, and another one when learn has run again.
class Parrot
script main
type Parrot.learn : (Bool) -> Nil
def Parrot.learn(polite)
  type Parrot.speak : () -> Str
  if polite then
    def Parrot.speak() "good morning" end
  else
    def Parrot.speak() "squawk" end
  end
end
parrot = Parrot.new
parrot.learn(false)
print parrot.speak
parrot.learn(true)
print parrot.speak
end
