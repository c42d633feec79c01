"""The workloads of workloads.txt, and the programs that do them."""
import os

HERE = os.path.dirname(os.path.abspath(__file__))

# The crate of the workloads.
CRATE = "seatmelon_workloads"


class Workload:
    """A line of workloads.txt: a name, a crate, the words of its program, and behind them what is said of commits."""

    def __init__(self, line, seed):
        words, *notes = (part.split() for part in line.split("|"))
        self.name, self.crate, *words = words
        self.words = [str(seed) if word == "SEED" else word for word in words]

        # The commit that brought the workload, if that isn't the one that brought all, and those since which its output is
        # meant to differ from what came before.
        self.since, self.changes = None, []
        for kind, *commits in notes:
            if kind == "since":
                self.since, = commits
            elif kind == "output":
                self.changes += commits
            else:
                raise ValueError("workloads.txt: %s" % line)


def workloads(seed):
    """The workload of each line, SEED replaced by the seed."""
    with open(os.path.join(HERE, "workloads.txt"), encoding="ascii") as text:
        return [Workload(line, seed) for line in map(str.strip, text) if line and not line.startswith("#")]


def program(checkout, crate):
    """The program that `rt run` left there."""
    return os.path.join(os.path.abspath(checkout), "crates", crate, "out", crate)
