"""The order in which the mutants of a crate are judged: a batch at a time, until each function has enough."""
import collections
import time

from mutation import JUDGED
from operators import Mutant
from verdicts import CONTROL

# How many mutants one check judges.
BATCH = 40


class Run:
    """The mutants of a crate that are still to be tried."""

    def __init__(self, crate, verdicts, mutants, most):
        self.crate, self.verdicts, self.most, self.left = crate, verdicts, most, mutants
        self.functions = {id(m.function): m.function for m in mutants}
        symbols = {key: crate.symbol_of(f) for key, f in self.functions.items()}
        # Those whose mutants replace them, and those that need no control any more.
        self.placed = {key for key, f in self.functions.items() if f.in_trait}
        controlled = verdicts.controlled()
        self.tried = {k for k, f in self.functions.items() if not crate.has_proofs(f) or verdicts.hash(f) in controlled}
        judged = verdicts.count()
        self.count = collections.Counter({key: judged[verdicts.hash(f)] for key, f in self.functions.items()})
        lost = {key for key in self.placed if not symbols[key]}
        for key in lost:
            f = self.functions[key]
            print(f"not tried, because its symbol is not known: {f.file} {f.block} {f.name}", flush=True)
        self.left = [m for m in self.left if id(m.function) not in lost]

    def chosen(self, in_place):
        """The next mutants; if they replace their functions, one of each."""
        batch, later, taken = [], [], set()
        for m in self.left:
            key = id(m.function)
            wanted_now = self.count[key] < self.most and (key in self.placed) == in_place
            if len(batch) < BATCH and wanted_now and not (in_place and key in taken):
                batch.append(m)
                taken.add(key)
                self.count[key] += 1
            else:
                later.append(m)
        self.left = later
        return batch

    def beside(self):
        """Judges a batch of mutants that are written after their functions, with the controls of these functions. Returns
        whether there was one."""
        batch = self.chosen(False)
        if not batch:
            return False
        untried = {id(m.function): m.function for m in batch if id(m.function) not in self.tried}
        controls = [Mutant(f, CONTROL, [(f.opens, f.opens, "")], "as it is", 900000 + k) for k, f in enumerate(untried.values())]
        self.crate.judge(batch + controls, False)
        self.tried |= {*untried}
        self.verdicts.save([m for m in controls if m.kind == "survived"])
        bad = {id(m.function) for m in controls if m.kind != "survived"}
        self.placed |= {key for key in bad if self.crate.symbol_of(self.functions[key])}
        again = [m for m in batch if id(m.function) in bad and m.kind not in ("survived", "unread")]
        for m in again:
            self.count[id(m.function)] -= 1
        self.left = again + self.left
        self.settle([m for m in batch if m not in again])
        return True

    def in_place(self):
        """Judges a round of mutants that replace their functions. Returns whether there was one."""
        batch = self.chosen(True)
        if not batch:
            return False
        self.crate.judge(batch, True)
        waiting = [m for m in batch if m.kind == "waits"]
        if len(waiting) == len(batch):
            waiting.pop().kind = "unknown"
        self.settle(batch)
        self.left = waiting + self.left
        return True

    def settle(self, batch):
        """Saves and prints the verdicts of a batch."""
        for m in batch:
            self.count[id(m.function)] -= m.kind not in JUDGED
        batch = [m for m in batch if m.kind != "waits"]
        self.verdicts.save(batch)
        kinds = collections.Counter(m.kind for m in batch)
        print(f"{time.strftime('%H:%M:%S')} {self.crate.name}: {dict(kinds)}; left {len(self.left)}", flush=True)
        for m in batch:
            if m.kind in ("survived", "unknown"):
                print(f"  {m.kind}: {m.function.file} {m.function.name}, {m.operator}, {m.shown} {m.why}", flush=True)
