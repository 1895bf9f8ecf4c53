# The same till. A new part of the script wants types: it takes the till as a TypedTill.
class Till:
    name: Dyn
    total: Dyn

class TypedTill:
    name: str
    total: int

till = Till("north", 0)
till.total = till.total + 5

typed: TypedTill = till
print(typed.total + 1)

# The untyped part goes on as before, with the same object.
till.total = till.total + 7
print(typed.name)
print(typed.total)
