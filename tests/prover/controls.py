"""Controls: changes that must not count as refused. They show that a refused edit means something."""
import os
import re

from .crates import TOP
from .edits import BadEdit, Edit
from .evidence import Answer, Goal, counted

CONTROLS = os.path.join(TOP, "tests", "controls", "edits")
KIND = re.compile(r"(?m)^# control: (answers|lost|renamed|loop|nothing|clause)$")


class Control:
    """A control of a crate: its name, its kind, and the edit that it makes, or why it cannot be one."""

    def __init__(self, crate, name):
        self.name = name
        with open(os.path.join(CONTROLS, crate, name), encoding="utf-8") as file:
            self.kind = KIND.search(file.read()).group(1)
        try:
            self.edit, self.why_none = Edit(crate, name, os.path.join(CONTROLS, crate)), None
        except BadEdit as why:
            self.edit, self.why_none = None, str(why)

    def why_settled(self):
        """Returns why a control that needs no check fails as a test, or None: one that changes a clause, or that is no edit."""
        if self.kind != "clause":
            return self.why_none
        return None if "changes a clause" in (self.why_none or "") else "it is an edit like any other"


def controls_of(crate):
    """Returns the controls of a crate. A crate may have none."""
    folder = os.path.join(CONTROLS, crate)
    return [Control(crate, name) for name in sorted(os.listdir(folder))] if os.path.isdir(folder) else []


def why_wrong(control, found):
    """Returns why what was found is not what a control of its kind shows, or None."""
    if control.kind == "nothing":
        return "the check finds something" if found else None
    if not found:
        return "the check finds nothing, so it shows nothing"
    if counted(found, control.edit.keys):
        return "a goal counts, so it is refused"
    if control.kind == "answers" and not any(isinstance(each, Answer) and not each.is_lost for each in found):
        return "no answer stays behind that does not fit"
    if control.kind == "lost" and not any(isinstance(each, Answer) and each.is_lost for each in found):
        return "no answer loses a name"
    if control.kind == "renamed" and not any(isinstance(each, Goal) for each in found):
        return "no goal stands open under a new name"
    if control.kind == "loop" and not any(isinstance(each, Goal) and each.is_of_loop for each in found):
        return "no goal of a loop is open"
    return None
