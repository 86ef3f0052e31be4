"""How what a check prints is read: which functions it proved, and by what a mutant was rejected.

These are words of the kit, which no page of it promises. `trial_crate.py` sees that they are read
as they are meant.
"""
import re

# The last line of a check that proved all that it was asked.
PROVED = re.compile(r"^(logic=proved|only=\d+) ", re.M)
# A verdict, and above it the notes on the goals of the function that weren't proved.
VERDICT = re.compile(r"^((?:note: .*\n)*)fn (\S+): (.*)$", re.M)
GOAL = re.compile(r"^note: src/\S+: (it is not proved that .*)$", re.M)
# A verdict on a function that isn't proved, and the reasons that it gives, between `; `.
REJECTED = re.compile(r"(not proved|no proof)(?:[;:] (.*))?")
# What a verdict says of the function's own goals. All else that it says is of other functions.
OWN = ("expected ", "`search` did not prove ")
# An error at a place in a proof file, with the lines that belong to it.
ERROR = re.compile(r"^(?:\./)?(proofs/\S+?):\d+:\d+: error: (.*(?:\n  .*)*)", re.M)
# A line that says what is wrong, where nothing was judged.
WRONG = re.compile(r"\berror\b|no verdict|: not proved|no proof")
# An error that says nothing of the contract: a name is gone, or what is cited wasn't proved.
OF_A_NAME = re.compile(r"has no field|has no `|is not in scope|is no name|not admitted|not checked")

# How a check judges a mutant: a goal of its function isn't proved; a hand-written part of its proof
# no longer fits; it is proved; it can't be seen, since a function that it calls isn't proved; it
# fails for names in its proof files alone.
BY_GOAL, BY_PROOF, ACCEPTED, HELD, NAMES = range(5)


class Outcome:
    """What a check printed, and its status."""

    def __init__(self, status, text):
        self.status, self.text = status, text
        found = VERDICT.findall(text)
        self.verdicts = {name: verdict for _, name, verdict in found}
        self.goals = {name: GOAL.findall(notes) for notes, name, _ in found}

    def is_proved(self):
        return self.status == 0 and bool(PROVED.search(self.text))

    def is_judged(self):
        """Whether the prover came to look at the functions."""
        return self.status in (0, 1) and bool(self.verdicts)

    def error(self):
        """The first line that says what is wrong."""
        lines = self.text.split("\n")
        found = [it for it in lines if WRONG.search(it)]
        return (found or [it for it in lines if it] or ["it printed nothing"])[0][:300]

    def on(self, mutant):
        """What the check says of the mutant's function, or None."""
        return self.verdicts.get(mutant.function())

    def judge(self, mutant):
        """How the check judges the mutant, and what it prints of that."""
        verdict = self.on(mutant) or "the check doesn't name it"
        found = REJECTED.fullmatch(verdict)
        if not found:
            return ACCEPTED, verdict
        reasons = [it for it in (found[2] or "").split("; ") if it]
        own = [it for it in reasons if it.startswith(OWN)]
        if own:
            return BY_GOAL, "; ".join(own)
        errors = [said for file, said in ERROR.findall(self.text) if mutant.proves_in(file)]
        weighty = [it for it in errors if not OF_A_NAME.search(it)]
        if weighty:
            return BY_PROOF, weighty[0].split("\n")[0]
        if errors:
            # Goals that aren't proved say nothing here: an answer that would fit may have got lost.
            return (HELD, verdict) if reasons else (NAMES, errors[0].split("\n")[0])
        goals = self.goals.get(mutant.function())
        if goals:
            return BY_GOAL, "; ".join(goals)
        return (HELD if reasons else BY_PROOF), verdict
