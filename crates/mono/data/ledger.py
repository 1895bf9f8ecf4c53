# Four workers post to accounts of their own.
class Account:
    owner: str
    cents: int
    log: Dyn

class Tally:
    posts: Dyn

class TypedTally:
    posts: int

def post(a: Account, amount: int) -> int:
    if a.cents + amount < 0:
        return a.cents
    a.cents = a.cents + amount
    return a.cents

def many(a, amount, times):
    i = 0
    while i < times:
        post(a, amount)
        i = i + 1
    return a.cents

def note(t, n):
    t.posts = n

def worker(a, t, amount, times):
    last = many(a, amount, times)
    note(t, times)
    return last

ann = Account("ann", 0, None)
ben = Account("ben", 500, None)
cyd = Account("cyd", 1000, None)
dot = Account("dot", 20, None)
t = Tally(0)
typed = cast(TypedTally, t)
w1 = start(worker, ann, t, 5, 100)
w2 = start(worker, ben, t, -3, 100)
w3 = start(worker, cyd, t, 10, 100)
w4 = start(worker, dot, t, -1, 100)
print("ann", join(w1))
print("ben", join(w2))
print("cyd", join(w3))
print("dot", join(w4))
print(join(w1) == ann.cents)
total: int = ann.cents + ben.cents + cyd.cents + dot.cents
print(total, typed.posts)
