# Two threads share a counter. One puts a text into it, the other counts on it: whichever comes first, the second is blamed.
class Counter:
    hits: Dyn

class TypedCounter:
    hits: int

def label(c):
    c.hits = "none"

def count(c, times: int) -> int:
    typed: TypedCounter = c
    while times > 0:
        typed.hits = typed.hits + 1
        times = times - 1
    return typed.hits

shared = Counter(0)
print("before", shared.hits)
labelled = start(label, shared)
counted = start(count, shared, 5)
print("after", join(counted), join(labelled))
