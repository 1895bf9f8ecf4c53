a: Dyn = 1
b: Dyn = None
print(a + b)
