"""Two runs beside each other, step by step: that of an executable, and that of a new one with units in the place of
cuts, or with other registers in its blocks. What is compared stands in docs/GUARANTEES.md, and holds where the first
run is tame, with units for some steps more: none of these touches its text, and each `jalr` to the text leads to a
listed leader."""

# No block is longer; so many steps more a run may take to its end, and has to be tame.
LONGEST = 256


class Both:
    """The run `old` of an executable and the run `new` of the one made of it, after `n` steps. `live` are the registers
    that are live at each listed leader, and `gains` what is saved each time the block there is entered."""

    def __init__(self, old, new, live, gains):
        self.old, self.new, self.live, self.gains = old, new, live, gains
        self.n, self.fronts, self.saved, self.fault = 0, 0, 0, None
        # The leader at which the first run stood last.
        self.leader = None
        # At first all memory is compared.
        old.written.update(old.memory)
        new.written.update(new.memory)

    def run(self, most):
        """Makes so many steps at most, and puts down where the two differ first, by the number of steps and in words.
        Nothing is said of the last steps before the first run is wild."""
        self.look()
        while self.n < most and not (self.fault or self.old.wild or self.old.end and self.new.end):
            self.n += 1
            self.old.step()
            self.new.step()
            self.look()
        due = self.old.steps + LONGEST if self.fault else 0
        while self.old.steps < due and not (self.old.wild or self.old.end):
            self.old.step()
        if self.fault and self.old.wild and self.fault[0] + LONGEST >= self.old.steps:
            self.fault = None

    def look(self):
        what = self.difference()
        if what:
            self.fault = self.n, what

    def difference(self):
        """In what the two differ after these steps, or None."""
        old, new = self.old, self.new
        if new.output != old.output:
            return "the output"
        if new.wild and not old.wild:
            return "the new run touches the text"
        if old.end and new.end:
            return self.difference_at_end()
        if old.end or new.end:
            return self.difference_behind_end(old if old.end else new)
        return self.difference_at_front() if old.pc in self.live else None

    def difference_at_front(self):
        """Where the first run stands at a listed leader, and none has ended."""
        old, new, leader = self.old, self.new, self.old.pc
        if new.pc != leader:
            return f"the new run stands at {new.pc:08x}, the old one at {leader:08x}"
        what = self.difference_in_registers()
        if what:
            return what
        if old.cost - new.cost != self.saved:
            return f"{old.cost - new.cost} cycles saved and not {self.saved} at {leader:08x}"
        self.leader = leader
        self.saved += self.gains.get(leader, 0)
        return self.difference_outside()

    def difference_in_registers(self):
        """In the registers that are live where both stand at a listed leader."""
        old, new, leader = self.old, self.new, self.old.pc
        self.fronts += 1
        for register in self.live[leader]:
            if old.x[register] != new.x[register]:
                return f"x{register} is {new.x[register]:08x} and not {old.x[register]:08x} at {leader:08x}"
        return None

    def difference_outside(self):
        """In memory outside the text, heap end or input left; bytes that no run has written since were equal before."""
        old, new = self.old, self.new
        if (old.heap, old.input) != (new.heap, new.input):
            return "the heap's end, or what is left of the input"
        for address in (old.written | new.written) - old.program.text:
            if old.memory.get(address, 0) != new.memory.get(address, 0):
                return f"the byte at {address:08x}"
        old.written.clear()
        new.written.clear()
        return None

    def difference_at_end(self):
        old, new = self.old, self.new
        if old.end != new.end:
            return f"the new run ends by {new.end}, the old one by {old.end}"
        if not old.end.startswith("access") and (old.steps, old.cost - new.cost) != (new.steps, self.saved):
            return (f"{new.steps} steps and {old.cost - new.cost} cycles saved, and not {old.steps} and {self.saved}, "
                    f"at the end {old.end}")
        return self.difference_outside()

    def difference_behind_end(self, ended):
        """Where one run alone has ended."""
        if not ended.end.startswith("access") or self.n - ended.steps >= LONGEST:
            return f"one run alone ends, by {ended.end}"
        if self.old.end is None and self.old.pc in self.live:
            return f"the new run ends by {ended.end} before the old one, which passes its block"
        return None


class InStep(Both):
    """The run `old` of an executable and the run `new` of the one in which its blocks are renamed, after `n` steps for
    which the first is tame."""

    def __init__(self, old, new, live):
        super().__init__(old, new, live, {})

    def run(self, most):
        """Makes so many steps at most, until the first run has ended or isn't tame, and puts down where the two differ
        first."""
        self.look()
        while self.n < most and not (self.fault or self.old.wild or self.old.end):
            self.n += 1
            self.old.step()
            self.new.step()
            if not self.old.wild:
                self.look()

    def difference(self):
        old, new = self.old, self.new
        if (old.end, old.pc, old.output, old.cost) != (new.end, new.pc, new.output, new.cost):
            return (f"the new run stands at {new.pc:08x}, ends by {new.end} and costs {new.cost}, and the old one at "
                    f"{old.pc:08x}, by {old.end} and {old.cost}; or their outputs differ")
        return old.pc in self.live and self.difference_in_registers() or self.difference_outside()
