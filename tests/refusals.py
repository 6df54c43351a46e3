"""What a check says of one function: whether it is refused, and by which clause or call.

A goal that the check leaves open refuses a body only where it tells of what the body does, and not of how it is
spelled. An answer of a proof file is written for names: of a variable, a call, a condition. Where an edit changes
such a name the answer is lost, and the goal that it was for is open whatever the body does. So:

- an error that says only that a name is gone does not count;
- a goal that the search leaves does not count where an answer for a goal of its kind is lost, unless the check says
  that there are values at which it is false;
- no goal counts where the name of an invariant is gone, since all of them rest on it;
- an answer whose type differs from the goal's only in the order of what `+` and the like take does not count.

An edit that fails no other goal is undecided, which is not refused. Where names are lost, it is tried once more with
those in the proof changed along (renamed_proof.py).
"""

import re

from same_body import says_the_same

# an error of these says only that a proof names what the edit took away, or rests on what is not proved
LOST = re.compile(
    r"has no field|is not a field of|is not in scope|has no `|that can be named from here"
    r"|was not admitted|(?:was|were) not checked"
)
UNPROVED = re.compile(r"(?:not proved|no proof: .* did not prove )")
# what refuses a function, in the first word of it: its own contract says most, a step of a proof least
RANKS = ("ensures", "requires", "invariant", "bounds", "step", "proof")
FALSE_AT = "the facts known there allow values at which this goal is false"
UNASKED = re.compile(r"note: \S*/Invariants\.antt: `\S+` is no name that rattle asks for in `(\S+)`")
DIFFER = re.compile(
    r"the two types differ only where one has `(.+?)`\s+\(expected\) and the other has `(.+?)`\s+\(found\)"
)
TYPES = re.compile(r"expected type `(.+?)`,?\s+but this has type `(.+?)`\s*$", re.M)


class Verdict:
    """What a check says of a function: its line, and each message about its own proof."""

    def __init__(self, crate, edit, lines):
        within, _, last = edit.path.rpartition("::")
        own = rf"{re.escape(f'{crate.name}::{edit.path}')}|{re.escape(f'{crate.name}::{within}')}::fn::{last}::\S+"
        self.path, self.said, self.own = edit.path, "", []
        own_file = re.compile(rf"(\./)?({own_folders(edit)})\S*:\d+:\d+: error")
        notes = []
        for message in messages(lines):
            line = re.match(rf"fn ({own}): (.*)", message)
            if line:
                self.own += notes
                if not self.said or UNPROVED.match(line[2]):
                    self.said = line[2]
            # the notes on a function's body stand right above its line
            notes = [] if message.startswith("fn ") else notes
            if re.match(r"note: src/\S+ it is not proved that ", message):
                notes.append(message)
            asked = UNASKED.match(message)
            if asked and re.fullmatch(own, asked[1]):
                self.own.append(message)
            if own_file.match(message):
                self.own.append(message)

    def goals(self):
        """What fails and counts, in short words, each with the message that shows it: first what says most."""
        if self.has_lost_an_invariant():
            return []
        found = [it for it in self.own if not is_of_lost(it) and not is_of_order(it)]
        if re.match(r"no proof: .* did not prove ", self.said):
            found.append(self.said)
        rests = dict(it for message in self.own for it in rests_on(message))
        goals = []
        for message in found:
            for name in goals_of(message):
                goals += [(goal, message) for goal in [name, *rests.get(name, [])] if self.is_own(goal)]
        told = [(short_words(goal, self.path), message) for goal, message in goals if self.counts(goal, message)]
        return sorted(told, key=lambda it: RANKS.index(it[0].split()[0]))

    def counts(self, goal, message):
        """Whether a goal that a message says is open tells of what the body does."""
        is_shown = any(FALSE_AT in it and goal in goals_of(it) for it in self.own)
        words = short_words(goal, self.path)
        return is_shown or not is_of_search(message) or not any(covers(it, words) for it in self.lost_kinds())

    def has_lost_an_invariant(self):
        """Whether the function's file of invariants names what is not there any more."""
        return any(
            UNASKED.match(it) or is_of_lost(it) and "/Invariants.antt:" in it.partition(": error")[0]
            for it in self.own
        )

    def lost_kinds(self):
        """The kinds of goals, in short words, whose answers name what is not there any more: `None` for any."""
        named = [re.search(r": error: `([^`\s]+)`: ", it) for it in self.own if is_of_lost(it)]
        lost, roots = set(), {it[1] for it in named if it}
        for message in self.own:
            for root, resting, is_whole in depends_on(message):
                if root in roots or "not admitted" in message:
                    lost |= {*resting} if is_whole else {None}
        return {it and short_words(it, self.path) for it in lost | roots}

    def is_own(self, goal):
        """Whether a goal is the function's: those of a cycle's functions begin with the function's path."""
        return "::" not in goal or goal.startswith(f"{self.path}-")

    def refusal(self):
        """The clauses or calls that refuse the function, and what the check says of the first, or nothing where
        the check does not say so of this function itself: that it calls one which is not proved is no refusal."""
        goals = self.goals()
        if not UNPROVED.match(self.said) or not goals:
            return None
        return list(dict.fromkeys(words for words, _ in goals)), goals[0][1]

    def is_undecided(self):
        """Whether the function is not proved, and nothing that counts says why."""
        return bool(self.own) and self.said != "proved" and not self.refusal()

    def why_not(self):
        """Why the function counts as not refused."""
        if not self.said:
            return "BAD EDIT: the check says nothing of the function"
        if self.said == "proved":
            return "NOT REFUSED: the function is still proved"
        if self.own:
            return f"UNDECIDED: what fails tells of names or of order alone: {self.own[0][:300]}"
        return f"BAD EDIT: no contract of its own refuses it: {self.said[:300]}"


def messages(lines):
    """The messages of a check: each with the lines that are set in below it."""
    found = []
    for line in lines:
        if line.startswith("  ") and found:
            found[-1] += f"\n{line}"
        else:
            found.append(line)
    return found


def own_folders(edit):
    """How a path of a proof file of the function begins: in its own folder, in that of a function which calls
    itself, or in that of its cycle, at the module where the cycle's functions meet."""
    within, _, last = edit.path.replace("::", "/").rpartition("/")
    own = f"{re.escape(within)}/" if within else ""
    folders = rf"proofs/{own}(\+|fn/)?{re.escape(last)}/"
    for cycle in edit.cycles():
        folders += rf"|proofs/(\S*/)?\+{re.escape(cycle)}/"
    return folders


def goals_of(message):
    """The names of the goals that a message is about, as `returns-clause-left`."""
    line = message.partition("\n")[0]
    if line.startswith("no proof: "):
        return re.findall(r"`([^`\s]+)`", line.partition(" did not prove ")[2]) or [""]
    found = re.search(r": error: `([^`\s]+)`: ", line) or re.search(r"\(`([^`\s]+)`\)", line)
    return [found[1] if found else ""]


def is_of_lost(message):
    """Whether a message says only that a name is gone, or that what rests on it was not looked at."""
    return bool(UNASKED.match(message) or LOST.search(" ".join(message.split("\n")[:2])))


def is_of_order(message):
    """Whether an answer's type differs from the goal's only in the order of what `+` and the like take."""
    pairs = DIFFER.findall(message) or [fixed_sides(*it) for it in TYPES.findall(message)]
    try:
        return any(one and says_the_same(plain(one), plain(other)) for one, other in pairs)
    except RecursionError:
        return False  # (a term that nests so deep is not read)


def fixed_sides(one, other):
    """Two types, of equations without a side that the answer leaves open, as `?10 c`: that says nothing."""
    sides = zip(one.split(" ≡ "), other.split(" ≡ "))
    fixed = [it for it in sides if not re.search(r"\?\d", " ".join(it))]
    return tuple(" , ".join(it) for it in zip(*fixed)) if fixed else ("", "")


def plain(term):
    """A term whose names have no `-` in them, which is minus elsewhere."""
    return re.sub(r"(?<=\w)-(?=\w)", "_", term)


def is_of_search(message):
    """Whether a message is about a goal that the search leaves, and no answer is for."""
    return message.startswith(("note: src/", "no proof: "))


def covers(lost, words):
    """Whether a goal, in short words, is of the kind of one whose answer is lost: of the same clause or call, or
    any where that is not known. A step's name, and a loop's, may be what the edit changed."""
    if lost is None:
        return True
    kind, clause, of = kind_of(lost)
    kind_too, clause_too, of_too = kind_of(words)
    if kind != kind_too or kind in ("invariant", "step"):
        return kind == kind_too
    return of == of_too and (clause == clause_too or not clause or not clause_too)


def kind_of(words):
    """Short words in three parts: `ensures`, the clause if it has a name, and what it is of."""
    return re.fullmatch(r"(\w+) (.*?) ?\b(?:of|in) (.+)", words).groups()


def depends_on(message):
    """A declaration that failed, with those that were left unchecked for it and whether all of them are named."""
    line = message.partition("\n")[0]
    found = re.search(r"declarations? that depends? on `([^`\s]+)`, which .*? not checked: (.*)", line)
    if not found:
        return []
    names = re.sub(r" and \d+ more$", "", found[2])
    return [(found[1], names.split(", "), names == found[2])]


def rests_on(message):
    """A step of a proof that failed, with the goals that were left unchecked for it, where a message says so."""
    return [(root, names) for root, names, _ in depends_on(message) if "which was rejected" in message]


def short_words(goal, path):
    """A goal in short words, which begin with one of `RANKS`: a clause of the contract of this function, an
    invariant, or what a call requires."""
    goal, last = goal.removeprefix(f"{path}-"), path.split("::")[-1]
    clause = re.search(r"-clause-([\w.]+)", goal)
    name = f"{clause[1]} " if clause else ""
    call = re.match(r"(\w+)(?:-.*)?-requires\b", goal)
    loop = re.match(r"(loop-.+?)-(?:init|preserved|smaller)\b", goal)
    if goal.startswith("returns"):
        return f"ensures {name}of {last}"
    if call:
        return f"requires {name}of {call[1]} in {last}"
    if loop:
        return f"invariant {loop[1]} of {last}"
    if goal.startswith("invariant_of"):
        return f"invariant of a type in {last}"
    if goal.startswith("overflow_"):
        return f"bounds of a number in {last}"
    return f"step {goal} of {last}" if goal else f"proof of {last}"
