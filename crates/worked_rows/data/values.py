name: str = "mono"
ready: bool = True
nothing: None = None
anything: Dyn = "text"
print(name)
print(ready)
print(nothing)
print(anything)
