"""The table of opcodes, as its definition in the repository has it."""
import os
import re

HERE = os.path.dirname(os.path.abspath(__file__))
FILE = os.path.join(HERE, "..", "..", "..", "crates", "opcode_table", "specs", "Table.antt")
ROW = re.compile(r'^row \w+ = block (\w+) "(\w+)" (\[\]|\(.*?\)) (\[\]|\(.*?\)) (\d)$', re.M)
INPUT = re.compile(r'(needs|may) "(\w+)"')
FIELD = re.compile(r'codes "(\w+)"')


class Row:
    """An opcode: its role, its inputs as pairs (name, whether it is needed), its fields, how many branches it has."""

    def __init__(self, role, name, inputs, fields, branches):
        self.role, self.name, self.branches = role, name, int(branches)
        self.inputs = [(text, word == "needs") for word, text in INPUT.findall(inputs)]
        self.fields = FIELD.findall(fields)

    def branch_names(self):
        """The names of the inputs that are branches."""
        return ["SUBSTACK", "SUBSTACK2"][:self.branches]


def rows():
    """All rows, in the order of the table."""
    with open(FILE, encoding="utf-8") as file:
        text = file.read()
    found = [Row(*parts) for parts in ROW.findall(text)]
    if len(found) != len(re.findall(r"^row \w+ = ", text, re.M)):
        raise SystemExit("a row of %s has a form that is not known here" % FILE)
    return found


ROWS = rows()
BY_NAME = {row.name: row for row in ROWS}


def of_role(role):
    """The rows of a role: Hat, Definition, Prototype, Command or Reporter."""
    return [row for row in ROWS if row.role == role]
