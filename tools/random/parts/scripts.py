"""Scripts of a project: hats, commands one below another, own blocks and their calls, and blocks that lie loose."""
import json

from . import heavy, values
from .blocks import Blocks, Place
from .project import Procedure
from .table import BY_NAME, of_role

WEIGHTS = {"control_repeat": 8, "control_if": 6, "control_if_else": 6, "control_repeat_until": 4, "control_wait": 6, "event_broadcast": 5,
           "event_broadcastandwait": 5, "control_create_clone_of": 6, "sensing_askandwait": 4, "procedures_call": 12, "control_forever": 5,
           "data_setvariableto": 10, "data_changevariableby": 10, "data_addtolist": 6, "control_stop": 2, "control_delete_this_clone": 2,
           "looks_changeeffectby": 5, "looks_seteffectto": 5, "looks_sayforsecs": 4, "motion_glidesecstoxy": 4}
RANDOM_HATS = [(row.name, {"event_whenflagclicked": 12, "event_whenbroadcastreceived": 7, "event_whenkeypressed": 4, "control_start_as_clone": 4}.get(row.name, 2)) for row in of_role("Hat")]


def weight(row):
    """How often a command is chosen, beside others."""
    return WEIGHTS.get(row.name, 1 if row.name.startswith("sound") else 3)


COMMANDS = [(row, weight(row)) for row in of_role("Command")]


class Scripts(Blocks):
    """Makes all scripts of a project."""

    def __init__(self, project):
        super().__init__(project)
        self.left = 0

    # Commands

    def row(self, place):
        """A command that may stand there."""
        row = self.dice.weighed(COMMANDS)
        if row.branches and place.depth > 2 or row.name == "control_create_clone_of" and place.is_clone and self.dice.chance(70):
            return BY_NAME["data_changevariableby"]
        return row

    def command(self, place):
        """A command, and its id."""
        row = self.row(place)
        if row.name == "procedures_call":
            return self.call(place)
        inputs = self.inputs(place, row)
        for name in row.branch_names():
            inputs.update(self.branch(place, name))
        if self.dice.chance(4):
            inputs["MORE"] = self.held(place, "operator_join", "STRING1")
        if self.dice.chance(15):
            inputs = {name: inputs[name] for name in self.dice.shuffled(inputs)}
        fields = {name: self.field(place, row.name, name) for name in row.fields}
        if self.dice.chance(3):
            fields["MORE"] = ["x", None]
        return self.add(place, row.name, inputs, fields)

    def branch(self, place, name):
        """The input of a branch; an empty one is left out, or holds nothing."""
        first = self.stack(place.deeper(), self.dice.weighed([(0, 1), (1, 4), (2, 4), (3, 2)]))
        if first:
            return {name: [2, first]}
        return {name: [2, None]} if self.dice.chance(50) else {}

    def stack(self, place, count):
        """So many commands, one below another, and the id of the first."""
        first = above = None
        for _ in range(count):
            if self.left <= 0:
                break
            self.left -= 1
            ident = self.command(place)
            self.put_below(place, above, ident)
            first, above = first or ident, ident
            if place.target.blocks[ident]["opcode"] == "control_forever" and self.dice.chance(90):
                break
        self.share_tail(place, above)
        return first

    def share_tail(self, place, last):
        """Now and then the last block leads on to a block of a whole script, which then stands in two scripts."""
        if last and place.target.finished_commands and self.dice.chance(2):
            place.target.blocks[last]["next"] = self.dice.pick(place.target.finished_commands)

    def put_below(self, place, above, ident):
        """Links the block behind the one above it."""
        blocks = place.target.blocks
        if above:
            blocks[above]["next"], blocks[ident]["parent"] = ident, above

    # Own blocks

    def procedure(self, number):
        """An own block with some arguments."""
        arguments, code = [], self.dice.pick(["do", "Jump", "é", "draw a \\% of"]) + (" %d" % number)
        for name in self.dice.shuffled(["a", "b", "ok", "a"])[:self.dice.weighed([(0, 2), (1, 4), (2, 3), (3, 1)])]:
            truth = self.dice.chance(30)
            arguments.append((self.project.ident(), name, truth))
            code += " %b" if truth else self.dice.pick([" %s", " %n"])
        return Procedure(code, arguments, self.dice.chance(45))

    def mutation(self, procedure, is_prototype):
        """What a prototype or a call says, in the ways that files have it."""
        dice = self.dice
        out = {"tagName": "mutation", "children": [], "proccode": procedure.code, "argumentids": json.dumps([each[0] for each in procedure.arguments])}
        if is_prototype:
            out["argumentnames"] = json.dumps([name for _, name, _ in procedure.arguments])
            out["argumentdefaults"] = json.dumps([dice.pick([False, "false"]) if truth else dice.pick(["", "7", 1, 2.5]) for _, _, truth in procedure.arguments])
        out["warp"] = dice.pick(["true", True]) if procedure.warp else dice.pick(["false", False, "null"])
        if dice.chance(8):
            del out["argumentdefaults" if is_prototype and dice.chance(50) else "warp"]
        return out

    def call(self, place):
        """A call of an own block of the target, now and then of one that is not there, with some of its inputs."""
        procedures = place.target.procedures
        procedure = self.dice.pick(procedures) if procedures and self.dice.chance(97) else Procedure("nowhere %s", [], False)
        inputs = {}
        for ident, _, truth in procedure.arguments:
            if self.dice.chance(92):
                inputs[ident] = self.held(place, "operator_and", "OPERAND1") if truth else self.held(place, "operator_join", "STRING1")
        return self.add(place, "procedures_call", inputs, {}, mutation=self.mutation(procedure, False))

    def define(self, target, procedure):
        """The definition of an own block, its prototype, and the script below it."""
        place = Place(target, procedure)
        shadows = {}
        for ident, name, truth in procedure.arguments:
            opcode = "argument_reporter_boolean" if truth else "argument_reporter_string_number"
            shadows[ident] = [1, self.add(place, opcode, {}, {"VALUE": [name, None]}, shadow=True)]
        prototype = self.add(place, "procedures_prototype", shadows, {}, shadow=True, mutation=self.mutation(procedure, True))
        definition = self.add(place, "procedures_definition", {"custom_block": [1, prototype]}, {})
        self.put_on_top(target, definition, self.stack(place, self.dice.between(0, 5)))

    # Scripts

    def put_on_top(self, target, head, first):
        """Puts a head above the first block of its script."""
        target.blocks[head].update({"next": first, "topLevel": self.dice.chance(98), "x": self.dice.between(-100, 500), "y": 40})
        if first:
            target.blocks[first]["parent"] = head
        target.finish()

    def script(self, target, number):
        """A hat and what stands below it; the first of a target is mostly one that the green flag starts."""
        opcode = "event_whenflagclicked" if number == 0 and self.dice.chance(75) else self.dice.weighed(RANDOM_HATS)
        head = self.block(Place(target, depth=3), BY_NAME[opcode])
        field = target.blocks[head]["fields"].get("BROADCAST_OPTION")
        rank = [each.name for each in self.project.messages].index(field[0]) if field else -1
        place = Place(target, None, rank, 0, opcode == "control_start_as_clone")
        self.put_on_top(target, head, self.body(place))

    def body(self, place):
        """What stands below a hat: commands, in some scripts within a loop without end."""
        first = self.stack(place, self.dice.between(1, 7))
        if not first or self.dice.chance(65):
            return first
        loop = self.add(place, "control_forever", {"SUBSTACK": [2, first]}, {})
        place.target.blocks[first]["parent"] = loop
        return loop

    def loose(self, target):
        """Blocks that belong to no script: some commands, a reporter, a block of an extension, a variable."""
        what, ident = self.dice.below(4), self.project.ident()
        place = Place(target, depth=2)
        if what == 0:
            target.blocks[ident] = self.dice.pick([[12, "score", "v", 40, 300], [13, "list", "l", 1, 2], [12, "x", "y"]])
        elif what == 1:
            target.blocks[ident] = {"opcode": "pen_clear", "next": None, "parent": None, "inputs": {}, "fields": {}, "shadow": False, "topLevel": True, "x": 1, "y": 1}
        else:
            first = self.stack(place, 2) if what == 2 else self.block(place, BY_NAME["operator_add"])
            if first:
                target.blocks[first]["topLevel"] = True

    def of_target(self, target):
        """All scripts of a target."""
        target.procedures = [self.procedure(number) for number in range(self.dice.weighed([(0, 5), (1, 3), (2, 2)]))]
        if target.procedures and self.dice.chance(6):
            target.procedures.append(target.procedures[0])
        for number in range(self.dice.weighed([(0, 1), (1, 4), (2, 6), (3, 4), (5, 3)])):
            self.left = max(self.left, 4)
            self.script(target, number)
        for procedure in target.procedures:
            self.left = max(self.left, 3)
            self.define(target, procedure)
        for _ in range(self.dice.weighed([(0, 8), (1, 3), (2, 1)])):
            self.loose(target)
        if self.dice.chance(15):
            target.blocks = {ident: target.blocks[ident] for ident in self.dice.shuffled(target.blocks)}


def fill(project, is_heavy):
    """Gives scripts to all targets of a project; in a heavy one, one of them comes near a limit."""
    scripts = Scripts(project)
    if is_heavy:
        heavy.add(scripts)
    for target in project.targets:
        scripts.left = project.dice.pick([8, 20, 35, 60])
        scripts.of_target(target)
