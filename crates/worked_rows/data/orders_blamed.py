# An untyped function that gives no number: it is blamed at its own return, not where its value is added.
class Item:
    name: Dyn
    price: Dyn

class Priced:
    name: str
    price: int

def total(first: Priced, second: Priced, fee: Callable[[Priced], int]) -> int:
    return first.price + second.price + fee(first)

def flat(item):
    return 2

def gift(item):
    return "none"

tea = Item("tea", 4)
cup = Item("cup", 9)
print(total(tea, cup, flat))
print(total(tea, cup, gift))
