# The class has its types now, and no cast is left.
class Till:
    name: str
    total: int

till: Till = Till("north", 0)
till.total = till.total + 5
till.total = till.total + 7
print(till.name)
print(till.total)
