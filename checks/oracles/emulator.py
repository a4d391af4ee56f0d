"""A plain machine for RV32IM with units, which makes a run step by step (RISC-V Unprivileged ISA 20191213, chapters 2
and 7, and the calls and custom words of docs/GUIDE.md). It shares nothing with the program, so that the checks can
compare the two."""
from checks.oracles import units
from checks.oracles.operations import ALU, IMMEDIATE, WORD, immediate, signed
from readers import executable
from readers.folds import is_cput, is_cread, is_unit
from readers.instructions import BRANCHES, LOADS, STORES, mnemonic, offset
from readers.latencies import KEYS, NO_OPERATION

STACK_POINTER = 0x7FFFFFF0
# The places of the hidden registers behind x31: of two results, and of two operands.
RESULTS, OPERANDS, REGISTERS = 32, 34, 36
WRONG_FILE, WRONG_ADDRESS, NO_SUCH_CALL = -9 % WORD, -14 % WORD, -38 % WORD
# The latencies of what joins no cut, by the usual table.
LATENCIES = {**dict.fromkeys(LOADS.values(), 2), **dict.fromkeys(STORES.values(), 1),
             **dict.fromkeys(BRANCHES.values(), 1), "jal": 2, "jalr": 2, "auipc": 1, "fence": 1, "ecall": 1,
             "ebreak": 1, "div": 32, "divu": 32, "rem": 32, "remu": 32}
TESTS = {"beq": lambda a, b: a == b, "bne": lambda a, b: a != b, "bltu": lambda a, b: a < b,
         "bgeu": lambda a, b: a >= b, "blt": lambda a, b: signed(a) < signed(b),
         "bge": lambda a, b: signed(a) >= signed(b)}
WIDTHS = {"lb": 1, "lh": 2, "lw": 4, "lbu": 1, "lhu": 2, "sb": 1, "sh": 2, "sw": 4}


def quotient(a, b):
    """The quotient of two numbers, towards zero."""
    return abs(a) // abs(b) * (1 if (a < 0) == (b < 0) else -1)


DIVISIONS = {"divu": lambda a, b: a // b if b else -1, "remu": lambda a, b: a % b if b else a,
             "div": lambda a, b: quotient(signed(a), signed(b)) if b else -1,
             "rem": lambda a, b: signed(a) - signed(b) * quotient(signed(a), signed(b)) if b else a}


class End(Exception):
    """How a run ends, in the words of the end line."""


class Program:
    """What an executable's runs have in common: its memory at first, its text, what each word of that does and costs by
    a table, and the modules of its unit words, with their numbers, or None on a machine without units."""

    def __init__(self, data, table, modules=None):
        self.table, self.modules, self.numbers = table, modules, range(len(modules or ()))
        self.image = executable.Image(data)
        _, headers, _ = executable.read_header(data)
        segments = [(address, address + size) for _, _, address, _, size in executable.read_segments(data, headers)]
        self.heap = (max(past for _, past in segments) + 15) // 16 * 16
        self.room = executable.MEMORY_LIMIT - sum(past - start for start, past in [*segments, executable.STACK])
        self.regions = [executable.STACK, *segments]
        self.text = {address for start, past in self.image.ranges for address in range(start, past)}
        self.words = {address: self.image.word(address) for address in self.text if address % 4 == 0}
        self.actions, self.results = {}, {}

    def action(self, address):
        """The cost of the instruction at an address, and what it does to a machine."""
        if address not in self.words:
            return 0, ending(f"fetch {address:08x}")
        if address not in self.actions:
            self.actions[address] = self.decoded(address, self.words[address])
        return self.actions[address]

    def decoded(self, address, word):
        name, target, first, second = mnemonic(word), word >> 7 & 31, word >> 15 & 31, word >> 20 & 31
        if name is None:
            return self.custom(word, target, first, second)
        cost = self.table.pad if word == NO_OPERATION else (
            self.table.latencies[KEYS[name]] if name in KEYS else LATENCIES[name])
        if name in ALU or name in DIVISIONS:
            return cost, on_registers({**ALU, **DIVISIONS}[name], target, first, second)
        if name in IMMEDIATE:
            return cost, on_constant(ALU[IMMEDIATE[name]], target, first, immediate(word))
        if name in ("lui", "auipc"):
            return cost, setting(target, (word & 0xFFFFF000) + (address if name == "auipc" else 0))
        if name in TESTS:
            return cost, branch(TESTS[name], first, second, (address + offset(word)) % WORD)
        if name in WIDTHS:
            moved = immediate(word) if name in LOADS.values() else (signed(word) >> 25 << 5) + target
            return cost, (load(name, target, first, moved) if name in LOADS.values()
                          else store(WIDTHS[name], first, second, moved))
        return cost, {"jal": jump(target, (address + offset(word)) % WORD if name == "jal" else 0),
                      "jalr": jump_to_register(target, first, immediate(word)), "ecall": Machine.call,
                      "ebreak": ending("break"), "fence": go_on}[name]

    def custom(self, word, target, first, second):
        """A word that is no instruction of RV32IM."""
        number = (word >> 25 & 3) * 8 + (word >> 12 & 7)
        if is_unit(word) and number in self.numbers:
            return self.modules[number].cycles, self.use(number, target, (first, second, word >> 27))
        if self.modules is not None and is_cread(word):
            return self.table.read, on_constant(ALU["add"], target, RESULTS + second, 0)
        if self.modules is not None and is_cput(word):
            return self.table.read, passing(first, second)
        return 0, ending(f"illegal {word:08x}")

    def use(self, number, target, sources):
        def act(machine):
            x = machine.x
            key = (number, *(x[source] for source in sources), *x[OPERANDS:REGISTERS])
            if key not in self.results:
                self.results[key] = self.evaluated(self.modules[number], key[1:])
            x[target], *x[RESULTS:OPERANDS] = self.results[key]
            x[0] = 0
            machine.pc += 4
        return act

    def evaluated(self, module, values):
        """What a module gives of five words."""
        return units.evaluate(module, *values)


class Machine:
    """A machine in the state in which a run on some input opens. `written` are the addresses that were written since
    whoever compares emptied it; `wild` tells whether a step touched the text, or a `jalr` led to an address of the text
    that isn't one of those listed."""

    def __init__(self, program, given, listed=None):
        self.program, self.listed = program, program.words if listed is None else listed
        self.x, self.pc, self.memory = [0] * REGISTERS, program.image.entry, dict(program.image.loaded)
        self.x[2] = STACK_POINTER
        self.heap, self.input, self.output = program.heap, given, bytearray()
        self.steps, self.cost, self.end, self.wild = 0, 0, None, False
        self.written, self.targets = set(), set()

    def step(self):
        """Makes a step, unless the run has ended."""
        if self.end is not None:
            return
        cost, act = self.program.action(self.pc)
        self.steps += 1
        self.cost += cost
        try:
            act(self)
        except End as end:
            self.end = end.args[0]

    def run(self, steps):
        while self.end is None and self.steps < steps:
            self.step()

    def told(self):
        """What `run` prints of a run of the steps that were made."""
        return bytes(self.output) + f"end {self.end or 'limit'} steps {self.steps} cost {self.cost}\n".encode()

    def is_mapped(self, address, size):
        for start, past in self.program.regions:
            if start <= address and address + size <= past:
                return True
        regions = [*self.program.regions, (self.program.heap, self.heap)]
        return all(any(start <= at < past for start, past in regions) for at in range(address, address + size))

    def touch(self, address, size):
        for start, past in self.program.image.ranges:
            if address < past and start < address + size:
                self.wild = True

    def read(self, address, size):
        return bytes(self.memory.get(at, 0) for at in range(address, address + size))

    def write(self, address, data):
        places = range(address, address + len(data))
        self.memory.update(zip(places, data))
        self.written.update(places)

    def reach(self, address, size):
        """Ends the run where an access isn't to mapped bytes."""
        self.touch(address, size)
        if not self.is_mapped(address, size):
            raise End(f"access {address:08x} {size}")

    def call(self):
        """The environment call."""
        number, (first, address, size) = self.x[17], self.x[10:13]
        if number == 93:
            raise End(f"exit {first:08x}")
        if number == 214:
            self.x[10] = self.grow(first)
        elif number in (63, 64):
            size = min(size, len(self.input)) if number == 63 else size
            self.x[10] = self.transfer(first in ((0,) if number == 63 else (1, 2)), number == 63, address, size)
        else:
            self.x[10] = NO_SUCH_CALL
        self.pc += 4

    def transfer(self, is_open, is_read, address, size):
        """Moves bytes between memory and input or output, and gives how many, or what a refused call answers."""
        if not is_open or not self.is_mapped(address, size):
            return WRONG_ADDRESS if is_open else WRONG_FILE
        self.touch(address, size)
        if is_read:
            self.write(address, self.input[:size])
            self.input = self.input[size:]
        else:
            self.output += self.read(address, size)
        return size

    def grow(self, due):
        """Moves the heap's end, where it may stand there, and gives where it stands."""
        start = self.program.heap
        meets_stack = due > executable.STACK[0] and start < executable.STACK[1]
        if start <= due <= executable.HIGHEST_END and not meets_stack and due - start <= self.program.room:
            if due < self.heap:
                self.written.update(at for at in self.memory if due <= at < self.heap)
                self.memory = {at: byte for at, byte in self.memory.items() if not due <= at < self.heap}
            self.heap = due
        return self.heap


# What instructions do to a machine.

def go_on(machine):
    machine.pc += 4


def ending(words):
    def act(machine):
        raise End(words)
    return act


def on_registers(compute, target, first, second):
    def act(machine):
        x = machine.x
        x[target] = compute(x[first], x[second]) % WORD
        machine.pc += 4
    return act if target else go_on


def on_constant(compute, target, first, constant):
    def act(machine):
        x = machine.x
        x[target] = compute(x[first], constant) % WORD
        machine.pc += 4
    return act if target else go_on


def passing(first, second):
    def act(machine):
        machine.x[OPERANDS:REGISTERS] = machine.x[first], machine.x[second]
        machine.pc += 4
    return act


def setting(target, value):
    return on_constant(lambda _, constant: constant, target, 0, value)


def lead(machine, target):
    if target % 4:
        raise End(f"misaligned {target:08x}")
    machine.pc = target


def branch(test, first, second, target):
    def act(machine):
        if test(machine.x[first], machine.x[second]):
            lead(machine, target)
        else:
            machine.pc += 4
    return act


def jump(link, target):
    def act(machine):
        behind = machine.pc + 4
        lead(machine, target)
        if link:
            machine.x[link] = behind % WORD
    return act


def jump_to_register(link, first, constant):
    def act(machine):
        target = (machine.x[first] + constant) % WORD & ~1
        jump(link, target)(machine)
        if target in machine.program.words:
            machine.targets.add(target)
            machine.wild |= target not in machine.listed
    return act


def load(name, target, first, moved):
    width, is_signed = WIDTHS[name], name in ("lb", "lh")

    def act(machine):
        address = (machine.x[first] + moved) % WORD
        machine.reach(address, width)
        if target:
            machine.x[target] = int.from_bytes(machine.read(address, width), "little", signed=is_signed) % WORD
        machine.pc += 4
    return act


def store(width, first, second, moved):
    def act(machine):
        address = (machine.x[first] + moved) % WORD
        machine.reach(address, width)
        machine.write(address, machine.x[second].to_bytes(4, "little")[:width])
        machine.pc += 4
    return act
