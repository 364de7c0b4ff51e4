"""A procedure and its translation, run side by side by the models of tools/procedure.py and tools/target.py."""
from procedure import Bench, check, entries, translation
from target import check as check_target
from target import run


class Sides:
    """Both runs of an accepted procedure from a start function: the controller gets bench steps plus extras, one more where the bench stopped
    deep."""

    def __init__(self, file, start, arguments, depth, budget):
        functions = check(file)
        bench = Bench(file, functions, start, arguments)
        self.bench_stop = bench.run(depth, budget)
        self.bench_steps, self.extras = bench.steps, bench.extras
        self.target, self.entry = translation(file), entries(functions)[start]
        self.controller_stop, self.controller_steps, _ = run(
            check_target(self.target), self.entry, arguments, depth, bench.steps + bench.extras + (self.bench_stop == "deep"))

    def text(self):
        """What `both` prints."""
        return (
            f"target {len(self.target)}\nbench {self.bench_stop} steps {self.bench_steps}\n"
            f"controller {self.controller_stop} steps {self.controller_steps}\n")
