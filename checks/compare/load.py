"""Compares what `rumtsafi load` prints with what `find` and `run` say of the same program, made by a plain reading.
"""
import re

from checks.common import main
from checks.oracles import generated

SEEDS = 0, 7, 4294967295


def printed(check, *words):
    """What a call that succeeds prints."""
    done = check.call(*words)
    if done.returncode != 0:
        raise SystemExit(f"{' '.join(words)}: status {done.returncode}, {done.stdout!r}")
    return done.stdout


def ran(check, *words):
    """The output of a run, and what it costs."""
    text = printed(check, "run", *words)
    found = re.fullmatch(rb"(.*)end exit 00000000 steps \d+ cost (\d+)\n", text, re.DOTALL)
    return found[1], int(found[2])


def due(check, seed):
    """The line of the seed, by the other commands."""
    check.write("old", generated.program(seed))
    blocks = len(printed(check, "blocks", "old").splitlines())
    summary = printed(check, "find", "old", "new", "units", "logs", "report").decode().rstrip("\n")
    output, cost = ran(check, "old")
    same, new_cost = ran(check, "new", "--units", "units")
    check.same(f"the output of the new program of {seed}", same, output)
    return f"load {seed} blocks {blocks} {summary} cost {cost} {new_cost} output {output.hex()}\n"


def look(check):
    for seed in SEEDS:
        wanted = due(check, seed)
        gain, cost, new_cost = map(int, re.search(r" gain (\d+) cost (\d+) (\d+) ", wanted).groups())
        check.same(f"load {seed}", printed(check, "load", str(seed)).decode(), wanted)
        check.same(f"what the costs of {seed} differ by", cost - new_cost, gain)
    return f"{len(SEEDS)} generated programs compared"


main(__doc__, look)
