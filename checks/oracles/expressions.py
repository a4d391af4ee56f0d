"""What the expressions of a page give, read as Python's, with words of 32 bits."""
MASK = 2 ** 32 - 1


class Word(int):
    """A word of 32 bits; `full` is all of a product, where it is one."""

    def __new__(cls, full):
        found = int.__new__(cls, full & MASK)
        found.full = full
        return found

    def __getitem__(self, bits):
        return Word(int(self) & 2 ** (bits.start + 1) - 1)

    def __invert__(self):
        return Word(~int(self))


class Signed(int):
    """A word read with its sign."""

    def __rshift__(self, amount):
        return Word(int(self) >> amount)


def wrap(name):
    """An operation of numbers whose result is a word."""
    return lambda left, right: Word(getattr(int, name)(int(left), int(right)))


for operation in ("add", "sub", "mul", "and", "or", "xor", "lshift", "rshift"):
    for place in ("", "r"):
        setattr(Word, f"__{place}{operation}__", wrap(f"__{place}{operation}__"))

FUNCTIONS = {
    "ror": lambda word, amount: Word(word >> amount | word << 32 - amount),
    "signed": lambda word: Signed(int(word) - 2 ** 32 if int(word) >> 31 else int(word)),
    "high": lambda product: Word((product.full if isinstance(product, Word) else int(product)) >> 32)}


def values(lines, inputs):
    """The values of y, z and x, by lines `name = expression` and words for a, b, c, d and e."""
    names = {**{letter: Word(word) for letter, word in zip("abcde", inputs)}, "z": Word(0), "x": Word(0)}
    for line in lines:
        name, expression = line.split(" = ", 1)
        names[name] = Word(int(eval(expression, {"__builtins__": {}, **FUNCTIONS}, names)))
    return int(names["y"]), int(names["z"]), int(names["x"])
