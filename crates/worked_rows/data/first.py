x: Dyn = 1
y: int = x
print(y + 2)
