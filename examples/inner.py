# A cast reaches the objects inside: the shelf's till is strengthened with the shelf.
class Till:
    total: Dyn

class Shelf:
    till: Dyn

class TypedTill:
    total: int

class TypedShelf:
    till: TypedTill

till = Till(3)
shelf = Shelf(till)
typed: TypedShelf = shelf
print(typed.till.total + 1)
till.total = None
