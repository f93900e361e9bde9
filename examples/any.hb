# A parameter of type Any takes every value. It may be given back and printed, but not joined.
# The first call enters. The second def is no fault; the call of it is, for ++ wants a Str.
class Echo
script main
type Echo.same : (Any) -> Any
def Echo.same(x) x end
print Echo.new.same("as it came")
def Echo.same(x) x ++ "!" end
print Echo.new.same("never printed")
end
