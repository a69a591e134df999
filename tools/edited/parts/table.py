"""The table of edits: each row has the rule that it is of, what is told of the edited run, the edit in words, and the edit."""

ACCEPTED = 'accepted'


class Row:
    """An edit of a saved run. `edit(save)` gives the edited bytes, or the bytes and those of a project file in place of its own;
    None where the saved run has nothing to edit so."""

    def __init__(self, rule, told, what, edit):
        self.rule = rule
        self.told = told
        self.what = what
        self.edit = edit


ROWS = []


def row(rule, told, what, edit):
    ROWS.append(Row(rule, told, what, edit))
