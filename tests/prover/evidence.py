"""What shows that a body is wrong, and what does not.

A goal that stands open in a changed function shows it. An answer of a proof file that no longer fits does not: a right body that says
the same in another way makes other goals, and the answers of the old ones no longer fit. So a goal does not count either if it
may be an old one under a new name: if an answer to a goal of the same clause lost its goal. Nor does a goal that a loop makes: that its
invariant holds before it and is kept, or that its measure decreases. Invariants and measures belong to the proof, as answers do, and a right
body with another loop needs others. Where such a goal is open, no goal of that function counts, since those behind the loop rest on an
invariant that is another loop's.

A ghost clause of a type is a clause of each function that makes or changes a value of that type: callers and other functions rest on it, and no edit
changes it. So its goal counts in such a function as one of the function's own clauses does.

There are four ways, from the strongest to the weakest, and the file of an edit names the one that holds it, or a weaker one:

- 'refused by values': the prover found values for which the goal is false;
- 'refused': the goal is open, and no goal of this kind has an answer. So the prover finds the proofs of this clause by itself;
- 'refused beside answers': the goal is open and has no answer, but other goals of this kind have. The prover finds its proof in the right
  body, or the wrong body has a return or step of its own;
- 'refused by values of an answer': the arithmetic of an answer fails, and the prover found values for which all that it cites holds.

An edit for which only answers break, or only goals of loops are open, is not refused.
"""
import re

CLAUSE = re.compile(r"-clause-(\w+)$")
RETURNS = re.compile(r"returns\b")
# What the name of a goal adds if the step stands in a branch, or is not the first of its kind.
WHERE = re.compile(r"-(?:then|else|in|in_\w+|\d+)(?=-|$)")

# A goal that a loop makes. Its name begins with that of the loop.
OF_LOOP = re.compile(r"loop-(?:[\w-]+-)?(?:init|preserved|smaller)(?:-|$)")


def clause_of(goal):
    """Returns the clause that a goal belongs to: its name in the contract, `ensures` if the clause has none, or the goal's own name if it
    belongs to a step of the body."""
    named = CLAUSE.search(goal)
    return named.group(1) if named else "ensures" if RETURNS.match(goal) else goal


BY_VALUES, ALONE, BESIDE_ANSWERS, IN_AN_ANSWER = "refused by values", "refused", "refused beside answers", "refused by values of an answer"
# From the strongest to the weakest.
WAYS = (BY_VALUES, ALONE, BESIDE_ANSWERS, IN_AN_ANSWER)


def kind_of(goal):
    """Returns the clause of a goal. Goals of one kind of step are of one kind, wherever these steps stand: a new branch renames them."""
    clause = clause_of(goal)
    return WHERE.split(clause)[0] if clause == goal else clause


def unmet(named, places):
    """Returns those of the places that an edit's file names at which no goal is open in its way, or in a stronger one."""
    return {(way, *place) for way, *place in named if not any((found, *place) in places for found in WAYS[:WAYS.index(way) + 1])}


class Goal:
    """An open goal: the function or other item that it belongs to, the line that tells it, its name, whether the prover found values for
    which it does not hold, and whether goals of its kind have answers. It may be one that a loop makes."""

    def __init__(self, item, line, name, is_false, answered):
        self.item, self.line, self.name, self.is_false = item, line, name, is_false
        self.key = item.key if item else None
        self.clause = clause_of(name)
        self.is_of_loop = OF_LOOP.match(name) is not None
        self.way = BY_VALUES if is_false else BESIDE_ANSWERS if kind_of(name) in answered else ALONE

    def place(self):
        """Returns the way in which the goal shows it, the function and the clause, as the file of an edit has them."""
        return (self.way, "::".join(self.item.tail()) if self.item and self.item.name else "", self.clause)


class FalseAnswer(Goal):
    """An answer whose arithmetic fails for values that the prover found. It counts as its goal."""

    def __init__(self, item, line, name):
        super().__init__(item, line, name, True, set())
        self.way = IN_AN_ANSWER


class Answer:
    """An answer of a proof file that no longer fits: the function that it belongs to, the line that tells it, the name of its goal, and
    whether the answer names something that is gone. The name is None if it is no single answer: an import, or an invariant of a loop."""

    def __init__(self, item, line, goal, is_lost):
        self.item, self.line, self.goal, self.is_lost = item, line, goal, is_lost
        self.key = item.key if item else None


def counted(found, keys):
    """Returns the open goals of these functions that show that a body is wrong. A goal may be an old one under a new name if an answer to a
    goal of its kind is lost, or if all answers may be. Where an invariant or a measure of a loop does not fit, nothing shows it."""
    goals = []
    for key in keys:
        lost = [answer for answer in found if isinstance(answer, Answer) and answer.key == key and (answer.is_lost or answer.goal is None)]
        of_function = [goal for goal in found if isinstance(goal, Goal) and goal.key == key]
        if any(answer.goal is None for answer in lost) or any(goal.is_of_loop for goal in of_function):
            continue
        renamed = {kind_of(answer.goal) for answer in lost}
        goals += [goal for goal in of_function if goal.is_false or kind_of(goal.name) not in renamed]
    return goals
