count: int = "three"
print(count + 1)
