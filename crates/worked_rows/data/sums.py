a: int = 40
b: int = a + 2
print(b)
c: Dyn = b
d: Dyn = c + 1
print(d)
print(c + d + 1)
e: int = c + a
print(e)
