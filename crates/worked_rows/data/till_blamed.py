# An untyped line puts a text where the typed part needs an integer. That line is blamed, and not the cast above it.
class Till:
    name: Dyn
    total: Dyn

class TypedTill:
    name: str
    total: int

till = Till("north", 0)
typed: TypedTill = till
print(typed.total)
till.total = "nothing"
print(typed.total)
