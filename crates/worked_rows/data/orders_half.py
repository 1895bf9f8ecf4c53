# The function that adds has types now. What calls it, and the function that it is given, have none yet.
class Item:
    name: Dyn
    price: Dyn

class Priced:
    name: str
    price: int

def total(first: Priced, second: Priced, fee: Callable[[Priced], int]) -> int:
    return first.price + second.price + fee(first)

def flat(item):
    return 2

tea = Item("tea", 4)
cup = Item("cup", 9)
print(total(tea, cup, flat))
tea.price = 5
print(total(tea, cup, flat))
