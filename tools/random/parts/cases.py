"""A whole case of a number: a project, an input script, a seed, and what was put into them on purpose."""
import os

from . import faults, json_text, lines, monitors, project, scripts
from .dice import Dice


class Case:
    """A case: the bytes of the project and of the script, the seed, and the fault of each, or `none`."""

    def __init__(self, number):
        self.dice = dice = Dice(number)
        self.number, self.project_fault, self.script_fault = number, "none", "none"
        self.seed = dice.pick([0, 1, 7, dice.below(2 ** 32), 2 ** 64 - 1])
        self.is_heavy = dice.chance(3)
        self.document, targets, keys = self.made()
        self.project = self.written()
        if dice.chance(12):
            self.script_fault = "a bad line"
        self.script = lines.script(dice, targets, keys, self.is_heavy, self.script_fault != "none")

    def made(self):
        """The document without a fault, the number of its targets, and the keys that its scripts wait for."""
        made = project.Project(self.dice)
        scripts.fill(made, self.is_heavy)
        return project.document(self.dice, made, monitors.monitors(self.dice, made)), len(made.targets), made.keys

    def written(self):
        """The text of the document, into which some cases have a fault put."""
        dice = self.dice
        if dice.chance(82):
            return json_text.written(dice, self.document)
        if dice.chance(15):
            self.project_fault = "in the text"
            return faults.in_text(dice, json_text.written(dice, self.document))
        fault = dice.weighed(faults.IN_DOCUMENT)
        self.project_fault = fault.__name__
        fault(dice, self.document)
        return json_text.written(dice, self.document)

    def files(self):
        """The files of the case: names and bytes. `about` tells the faults."""
        about = "project %s\nscript %s\n" % (self.project_fault, self.script_fault)
        return {"project.json": self.project, "script.txt": self.script, "seed": b"%d" % self.seed, "about": about.encode()}

    def write(self, folder):
        """Writes the files into the folder, which is made."""
        os.makedirs(folder, exist_ok=True)
        for name, data in self.files().items():
            with open(os.path.join(folder, name), "wb") as file:
                file.write(data)
