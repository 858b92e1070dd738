"""Where the model says something else than the program: that is told in place of an explanation."""
from .findings import Finding
from .pages import TOOLS, page_of
from .refusals import kind_of


class Differs(Exception):
    """The model says something else than the program; the finding says what."""

    @property
    def finding(self):
        return self.args[0]


def from_model(place, why, other):
    """What is raised where the model says another refusal, or takes what the program refuses."""
    return told(place, why, f"the model says `{other}`" if other else "the model takes it")


def told(place, why, other):
    """What is raised where something else is so than the program says, in words."""
    return Differs(Finding(
        place, kind_of(why), f"the program says `{why}`, and {other}",
        "a message to us: the program is right, and the model or the words of this call are wrong",
        page_of(TOOLS, "Where model and program differ"),
    ))


def or_differs(work, *values):
    """The finding that the work gives, or that model and program differ, which doesn't end the others."""
    try:
        return work(*values)
    except Differs as differs:
        return differs
