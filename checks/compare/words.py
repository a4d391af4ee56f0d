"""Compares what the script `rumtsafi` says of words that have no reading with the program that reads them.

Of each of some lists of words that are made up, the script has to name a fault exactly where the program ends with
status 1. It names a file that stands twice also where that is no fault, since it is asked after status 1 alone.
"""
import random

from checks.common import explained, main
from checks.repository import usage

COMMANDS, _, OPTIONS, WORDS = usage.usage()
OPTIONS = {option.name: option for option in OPTIONS}
ADDRESSES = ["0x0", "0x10094", "0xFFFFFFFF", "0xabCD"]
BAD_ADDRESSES = ["0x000010094", "0x100000000", "0x", "0X10", "10", "0x1g", "-0x1", ""]
NAMES = ["a", "b", "./a", "a b", "ü", "0x10", "best", "a=b", "*"]
BAD_NAMES = ["", "-", "-x", "--", "--input"]
BAD_NUMBERS = ["00000000003", "99999999999", "x", "+1", "-1", "1 ", "2.0", "", "--"]
ODD = ["", "-", "-x", "--", "--", "--help", "--version", "--foo", "--in", "--leader=", "--=", "---in", "--IN=1",
       "extra"]


def value(rng, of, faults=1):
    """A value of an option, or a word behind a command, and in `faults` of four cases a bad one, perhaps."""
    is_good = rng.randrange(4) >= faults
    if of.kind == usage.NUMBER:
        least, greatest = map(int, of.range)
        good = [str(least), str(greatest), f"{greatest:010}"]
        return rng.choice(good if is_good else [str(least - 1), str(greatest + 1), *BAD_NUMBERS])
    if of.kind == usage.ADDRESS:
        return rng.choice(ADDRESSES if is_good else BAD_ADDRESSES)
    return rng.choice(NAMES if is_good else BAD_NAMES)


def option(rng, name):
    """An option of this name with a value, as one word or as two."""
    word = value(rng, OPTIONS[name])
    return [f"--{name}={word}"] if rng.random() < 0.5 else [f"--{name}", word]


def words(rng):
    """Words of a command, mostly with few faults. Numbers and names stand in their order, and options anywhere."""
    command = rng.choice(COMMANDS)
    name, fault = command.name, rng.randrange(12)
    given = [value(rng, WORDS[word], 4 * (fault == 0)) for word in command.words]
    options = {*command.needed, *rng.sample(command.options, min(len(command.options), rng.randrange(3)))}
    parts = [option(rng, it) for it in sorted(options)]
    if fault == 1:
        parts.append([rng.choice(ODD)])
    elif fault == 2:
        parts.append(option(rng, rng.choice([*OPTIONS])))
    elif fault == 3:
        given.pop(0)
    elif fault == 4:
        name = rng.choice(["", "bset", "Best", "--help", "-h", "asm dis", "@", "*"])
    elif fault == 5:
        parts.append(["--"])
    elif fault == 6:
        given = given[:1] * len(given)
    rest = [[it] for it in given]
    for part in parts:
        rest.insert(rng.randrange(len(rest) + 1), part)
    return [name, *(word for part in rest for word in part)]


def look(check):
    rng, refused, count = random.Random(1), 0, 1000
    for number in range(count):
        given = words(rng) if number else []
        status = check.call(*given).returncode
        said = [line for line in explained("words", *given).splitlines() if line.startswith("rumtsafi: ")]
        refused += status == 1
        reads_twice = status != 1 and said and said[-1].endswith("names twice")
        check.need(bool(status == 1 or reads_twice) == bool(said) and len(said) < 2,
                   f"{given}: status {status}, and the script says: {said or 'nothing'}")
    check.least({"words with a reading": count - refused, "words without one": refused}, 1)
    return f"{count} lists of words, of which {refused} have no reading"


main(__doc__, look)
