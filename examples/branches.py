# Even numbers up to 10 are added, each odd one takes one off, and 7 is left out.
n: int = 10
total = 0
while n > 0:
    if n % 2 == 0:
        total = total + n
    elif n == 7:
        pass
    else:
        total = total - 1
    n = n - 1
print(total, n)
print(-7 // 2, -7 % 2)
print(not n == 0, n == 0 and total > 20)
