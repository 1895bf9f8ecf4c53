largest: int = 140737488355327
print(largest)
print(largest + 1)
