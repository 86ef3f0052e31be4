"""Checks of crates with mutants in them: how they are run, and what becomes of the mutants.

`tools/mutants` says what a mutant is, and chooses those to be tried.
"""
import concurrent.futures
import os
import re
import shutil
import signal
import subprocess
import tempfile
import threading

from edits import edited, rounds_of
from repo import PARTS, read
from verdicts import ACCEPTED, BY_GOAL, BY_PROOF, HELD, Outcome

# What a check takes of memory at the most, in bytes.
MEMORY = 3_000_000_000
# The seconds after which a check is given up.
LIMIT = 3600


class Stop(Exception):
    """Why nothing can be tried."""


# The kit and the machine


def kit():
    """The folder of the kit whose `rt` is on the PATH."""
    try:
        page = subprocess.run(["rt", "doc"], capture_output=True, text=True, check=True).stdout
    except (OSError, subprocess.CalledProcessError) as error:
        raise Stop(f"the kit isn't found: rt doc: {error}") from None
    return os.path.dirname(page.strip())


def logic():
    """The name of the kit's logic, as its line ends: kits that differ in their tools alone have the
    same, and all of its line where it names none."""
    try:
        said = subprocess.run(["rt", "version"], capture_output=True, text=True, check=True).stdout
    except (OSError, subprocess.CalledProcessError) as error:
        raise Stop(f"the kit isn't found: rt version: {error}") from None
    line = said.split("\n")[0]
    return line[line.find("logic "):] if "logic " in line else line


def lanes():
    """How many checks the machine carries side by side."""
    found = len(os.sched_getaffinity(0))
    quota = first_numbers("/sys/fs/cgroup/cpu.max")
    if len(quota) == 2:
        found = min(found, max(quota[0] // quota[1], 1))
    memory = [1024 * it for it in first_numbers("/proc/meminfo", r"MemAvailable:\s+(\d+)")]
    limit = first_numbers("/sys/fs/cgroup/memory.max")
    used = first_numbers("/sys/fs/cgroup/memory.current")
    memory += [limit[0] - used[0]] if limit and used else []
    return max(1, min([found, *[it // MEMORY for it in memory]]))


def first_numbers(file, pattern=r"^(\d+)(?: (\d+))?"):
    """The numbers that the pattern finds in a file of the system's, if it is there."""
    try:
        found = re.search(pattern, read(file))
    except OSError:
        return []
    return [int(it) for it in found.groups() if it] if found else []


# Running checks


class Bench:
    """Runs checks in folders of its own, so many at a time."""

    def __init__(self, crates, jobs, log):
        self.crates, self.log = crates, log
        self.kit = kit()
        self.room = tempfile.mkdtemp(prefix="mutants-")
        self.turn = threading.Semaphore(jobs)
        self.running, self.ended, self.guard = set(), False, threading.Lock()

    def words(self, crate):
        """The command that checks the crate whose copy lies where it runs."""
        kit, below = self.kit, self.crates.below(crate)
        words = [f"{kit}/bin/rattle", "check", "--crate-name", crate.name, crate.root()]
        for it in ["std", *crate.uses]:
            built = self.crates[it].library if it in below else f"{kit}/rlibs/{it}.rlib"
            words += ["--extern", f"{it}={built}"]
        for it in [f"{kit}/rlibs", *[os.path.dirname(self.crates[it].library) for it in below]]:
            words += ["-L", f"dependency={it}"]
        words += ["--antt-project", f"{kit}/rattle/logic/antt-project.json"]
        return [*words, "--logic-built", f"{kit}/logic_built", "--jobs", "1"]

    def unedited(self, crate, kept, only):
        """Checks the crate as it is, and keeps there what it proves."""
        with self.turn, tempfile.TemporaryDirectory(dir=self.room) as room:
            return self.check(crate, {}, room, kept, "unedited", only)

    def edited(self, crate, texts, kept, label, only):
        """Checks the crate with these texts in place of its own, over a copy of what is kept."""
        with self.turn, tempfile.TemporaryDirectory(dir=self.room) as room:
            if self.ended:
                raise Stop("it was ended")
            # A check replaces the files that it changes and writes into none, so links will do.
            shutil.copytree(kept, f"{room}/kept", copy_function=os.link)
            return self.check(crate, texts, room, f"{room}/kept", label, only)

    def check(self, crate, texts, room, kept, label, only):
        """Checks a copy of the crate in this folder, over what is kept in another: these functions
        and those that they call."""
        for part in PARTS:
            if os.path.isdir(f"{crate.folder}/{part}"):
                shutil.copytree(f"{crate.folder}/{part}", f"{room}/{part}")
        for path, text in texts.items():
            with open(f"{room}/{path}", "w", encoding="utf-8") as it:
                it.write(text)
        words = [*self.words(crate), "--incremental", kept, *[f"--only={it}" for it in only]]
        outcome = self.run(words, room)
        if outcome.status < 0:  # It was killed, most likely for memory.
            outcome = self.run(words, room)
        if self.log:
            with open(f"{self.log}/{crate.name}-{label}", "w", encoding="utf-8") as it:
                it.write(outcome.text)
        return outcome

    def run(self, words, folder):
        how = {"stdin": subprocess.DEVNULL, "stdout": subprocess.PIPE, "stderr": subprocess.STDOUT}
        # (a group of its own can be ended)
        how |= {"cwd": folder, "text": True, "errors": "replace", "process_group": 0}
        with self.guard:
            if self.ended:
                raise Stop("it was ended")
            started = subprocess.Popen(words, **how)
            self.running.add(started)
        try:
            text, _ = started.communicate(timeout=LIMIT)
        except subprocess.TimeoutExpired:
            end(started)
            text = f"error: the check had not ended after {LIMIT} seconds"
            started.communicate()
        with self.guard:
            self.running.discard(started)
        return Outcome(started.returncode, text)

    def close(self):
        """Ends what still runs, and removes the folders."""
        with self.guard:
            self.ended = True
            for it in self.running:
                end(it)
        shutil.rmtree(self.room, ignore_errors=True)


def end(started):
    try:
        os.killpg(started.pid, signal.SIGKILL)
    except OSError:
        pass


def libraries(crates, names, jobs):
    """Sees that the libraries below these crates are built from their sources of now."""
    below = [it for name in names for it in crates.below(crates[name])]
    for name in dict.fromkeys(below):
        words = ["rt", "lib", "--jobs", str(jobs)]
        how = {"stdout": subprocess.PIPE, "stderr": subprocess.STDOUT, "text": True}
        ran = subprocess.run(words, cwd=crates[name].folder, errors="replace", **how)
        if ran.returncode:
            raise Stop(f"the library {name} isn't proved: {Outcome(1, ran.stdout).error()}")


class Trial:
    """The mutants of one crate, and what became of them."""

    def __init__(self, bench, crate, mutants):
        self.bench, self.crate, self.mutants = bench, crate, mutants
        # By name, what a check printed: of those rejected by a goal, of those rejected by a
        # hand-written proof alone, and of those that weren't rejected.
        self.by_goal, self.by_proof, self.failed = {}, {}, {}
        self.numbers = iter(range(1, 1_000_000))

    def rejected(self):
        """The names of those that were rejected."""
        return {*self.by_goal, *self.by_proof}

    def run(self):
        """Tries all, once the crate itself has passed."""
        self.failed |= {it.name: it.fault for it in self.mutants if it.fault}
        left = [it for it in self.mutants if not it.fault]
        with tempfile.TemporaryDirectory(dir=self.bench.room) as kept:
            unedited = self.unedited(left, kept)
            if not unedited.is_proved():
                self.failed[self.crate.name] = (
                    f"no mutant was tried, since the crate itself isn't proved: {unedited.error()}"
                )
                return
            for it in left:
                if unedited.on(it) is None:
                    self.failed[it.name] = f"the crate has no function {it.rejects}"
            left = [it for it in left if it.name not in self.failed]
            while left:
                later = self.side_by_side(rounds_of(left), kept)
                # What is still held up, though nothing else is in its way, will always be.
                if len(later) == len(left):
                    later = self.side_by_side([[it] for it in left], kept)
                    for it, verdict in later:
                        self.failed[it.name] = f"{it.rejects} is only held up by others: {verdict}"
                    return
                left = [it for it, _ in later]

    def unedited(self, mutants, kept):
        """Checks the functions of the crate itself that these edit, and keeps in a folder what that
        proves."""
        own = f"{self.crate.folder}/out/incremental"
        if os.path.isdir(own):
            shutil.copytree(own, kept, dirs_exist_ok=True)
        outcome = self.bench.unedited(self.crate, kept, only(mutants))
        if not outcome.is_judged():  # A function isn't there, perhaps.
            outcome = self.bench.unedited(self.crate, kept, ())
        return outcome

    def side_by_side(self, rounds, kept):
        """Tries the rounds, and returns those that are held up, each with the verdict on it."""
        with concurrent.futures.ThreadPoolExecutor(max(1, len(rounds))) as pool:
            runs = [pool.submit(self.round, it, kept) for it in rounds]
            return [one for it in runs for one in it.result()]

    def round(self, mutants, kept):
        """Tries these at once, and returns those that are held up, each with the verdict on it."""
        label = f"round-{next(self.numbers)}"
        outcome = self.bench.edited(self.crate, edited(mutants), kept, label, only(mutants))
        if not outcome.is_judged():
            if len(mutants) == 1:
                self.failed[mutants[0].name] = f"it doesn't reach the prover: {outcome.error()}"
                return []
            half = len(mutants) // 2
            return self.side_by_side([mutants[:half], mutants[half:]], kept)
        held_up = []
        for it in mutants:
            judged, said = outcome.judge(it)
            if judged == BY_GOAL:
                self.by_goal[it.name] = said
            elif judged == BY_PROOF:
                self.by_proof[it.name] = said
            elif judged == HELD:
                held_up.append((it, said))
            elif judged == ACCEPTED:
                self.failed[it.name] = f"{it.rejects} isn't rejected: {said}"
            else:
                self.failed[it.name] = f"only a name in a proof file is gone, so keep names: {said}"
        return held_up


def only(mutants):
    """The functions that a check of these looks at."""
    return sorted({it.rejects for it in mutants})
