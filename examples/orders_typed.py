# Types everywhere, and no cast left.
class Item:
    name: str
    price: int

def total(first: Item, second: Item, fee: Callable[[Item], int]) -> int:
    return first.price + second.price + fee(first)

def flat(item: Item) -> int:
    return 2

tea: Item = Item("tea", 4)
cup: Item = Item("cup", 9)
print(total(tea, cup, flat))
tea.price = 5
print(total(tea, cup, flat))
