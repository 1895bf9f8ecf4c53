print(1)
print(total)
total: int = 2
