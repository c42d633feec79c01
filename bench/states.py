"""States of the repository that are compared: checkouts, and commits that are made into some."""
import os
import shutil
import subprocess
import sys

from workloads import CRATE, HERE, program

TOP = os.path.dirname(HERE)

# The first commit that has the workloads as states before it can run them, and what they stand on besides.
FIRST = "b696ff4"
BESIDE = ["rasta_draws"]


def git(folder, *words):
    """What git prints, without the end of its last line."""
    run = subprocess.run(["git", "-C", folder, *words], stdout=subprocess.PIPE, text=True, check=False)
    if run.returncode != 0:
        sys.exit("git %s: status %d" % (" ".join(words), run.returncode))
    return run.stdout.rstrip("\n")


def crate_lines(text, names):
    """The lines of a crates.txt for these crates."""
    return [line for line in text.splitlines() if line.split(":")[0] in names]


def is_since(state, commit):
    """Whether a state, by its commit, is that commit or comes after it."""
    asked = ["git", "-C", TOP, "merge-base", "--is-ancestor", commit, state]
    status = subprocess.run(asked, check=False).returncode
    if status > 1:
        sys.exit("%s or %s is no commit of this repository" % (commit, state))
    return status == 0


def lay_over(folder, state):
    """Gives a state from before FIRST the workloads of FIRST, with what they stand on and it lacks."""
    if is_since(state, FIRST):
        return
    names = [name for name in BESIDE if not os.path.isdir(os.path.join(folder, "crates", name))] + [CRATE]
    shutil.rmtree(os.path.join(folder, "crates", CRATE), ignore_errors=True)
    paths = ["crates/%s" % name for name in names]
    subprocess.run(["git", "-C", folder, "checkout", "-q", FIRST, "--", *paths], check=True)
    listed = os.path.join(folder, "crates.txt")
    with open(listed, encoding="utf-8") as text:
        kept = [line for line in text if line.split(":")[0] not in names]
    lines = crate_lines(git(folder, "show", "%s:crates.txt" % FIRST), names)
    with open(listed, "w", encoding="utf-8") as text:
        text.write("%s\n# The workloads, laid over.\n%s\n" % ("".join(kept), "\n".join(lines)))


def cloned(commit):
    """A clone at a commit, beside this repository."""
    whole = git(TOP, "rev-parse", "--verify", "%s^{commit}" % commit)
    folder = os.path.join(os.path.dirname(TOP), "seatmelon-at-%s" % whole[:12])
    if not os.path.isdir(folder):
        subprocess.run(["git", "clone", "-q", "--no-checkout", TOP, folder], check=True)
        git(folder, "checkout", "-q", whole)
        lay_over(folder, whole)
    return folder


class State:
    """A checkout, and what its commit is."""

    def __init__(self, name):
        self.folder = os.path.abspath(name) if os.path.isdir(name) else cloned(name)
        self.commit = git(self.folder, "rev-parse", "HEAD")

    def has(self, commit):
        """Whether the state is that commit or comes after it."""
        return is_since(self.commit, commit)

    def build(self):
        """Proves and builds the workloads, where that wasn't done."""
        if os.path.isfile(program(self.folder, CRATE)):
            return
        print("building %s: this takes up to an hour" % self.folder, file=sys.stderr, flush=True)
        crate = os.path.join(self.folder, "crates", CRATE)
        run = subprocess.run(["rt", "run", "--", "audit", "1", "1", "1000"], cwd=crate, stdin=subprocess.DEVNULL,
            stdout=subprocess.PIPE, stderr=subprocess.STDOUT, text=True, check=False)
        if run.returncode != 0:
            sys.exit("%s: rt run: status %d\n%s" % (crate, run.returncode, run.stdout))
