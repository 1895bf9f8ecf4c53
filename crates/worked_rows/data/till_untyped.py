# A till as it was first written: nothing in it has a type.
class Till:
    name: Dyn
    total: Dyn

till = Till("north", 0)
till.total = till.total + 5
till.total = till.total + 7
print(till.name)
print(till.total)
