# The price of an order, with no types at all.
class Item:
    name: Dyn
    price: Dyn

def total(first, second, fee):
    return first.price + second.price + fee(first)

def flat(item):
    return 2

tea = Item("tea", 4)
cup = Item("cup", 9)
print(total(tea, cup, flat))
tea.price = 5
print(total(tea, cup, flat))
