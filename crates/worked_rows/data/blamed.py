x: Dyn = 1
print(x)
y: str = x
print(y)
