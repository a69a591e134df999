"""Blocks with all that a row of the table asks for: fields, inputs, reporters that are nested, and menus."""
from . import values
from .project import Named
from .table import BY_NAME, of_role

TRUTHS = ["operator_gt", "operator_lt", "operator_equals", "operator_and", "operator_or", "operator_not", "operator_contains",
          "data_listcontainsitem", "sensing_keypressed", "sensing_mousedown", "argument_reporter_boolean"]
MENUS = {
    ("motion_goto", "TO"): "motion_goto_menu",
    ("motion_glideto", "TO"): "motion_glideto_menu",
    ("motion_pointtowards", "TOWARDS"): "motion_pointtowards_menu",
    ("looks_switchcostumeto", "COSTUME"): "looks_costume",
    ("looks_switchbackdropto", "BACKDROP"): "looks_backdrops",
    ("looks_switchbackdroptoandwait", "BACKDROP"): "looks_backdrops",
    ("control_create_clone_of", "CLONE_OPTION"): "control_create_clone_of_menu",
    ("sensing_keypressed", "KEY_OPTION"): "sensing_keyoptions",
    ("sensing_distanceto", "DISTANCETOMENU"): "sensing_distancetomenu",
    ("sensing_of", "OBJECT"): "sensing_of_object_menu",
    ("sound_play", "SOUND_MENU"): "sound_sounds_menu",
    ("sound_playuntildone", "SOUND_MENU"): "sound_sounds_menu",
}
TEXTS = ["MESSAGE", "QUESTION", "STRING1", "STRING2", "STRING", "ITEM"]
COMPARED = ["operator_gt", "operator_lt", "operator_equals"]


class Place:
    """Where a block is made: its target, the own block around it, the rank of the script's message, how deep it nests."""

    def __init__(self, target, procedure=None, rank=-1, depth=0, is_clone=False):
        self.target, self.procedure, self.rank, self.depth, self.is_clone = target, procedure, rank, depth, is_clone

    def deeper(self):
        return Place(self.target, self.procedure, self.rank, self.depth + 1, self.is_clone)


class Blocks:
    """Makes blocks of a project."""

    def __init__(self, project):
        self.project, self.dice = project, project.dice

    def add(self, place, opcode, inputs, fields, shadow=False, mutation=None):
        """A block of the target, and its id."""
        ident = self.project.ident()
        block = {"opcode": opcode, "next": None, "parent": None, "inputs": inputs, "fields": fields, "shadow": shadow, "topLevel": False}
        if mutation:
            block["mutation"] = mutation
        place.target.blocks[ident] = block
        return ident

    # Fields

    def field(self, place, opcode, name):
        """A field of a block, with the id of what it names."""
        if name in ("VARIABLE", "LIST"):
            return self.name_field(place, name)
        if name == "BROADCAST_OPTION":
            message = self.dice.pick(self.project.messages)
            return [message.name, message.ident]
        return [self.field_text(place, opcode, name), None] if self.dice.chance(80) else [self.field_text(place, opcode, name)]

    def field_text(self, place, opcode, name):
        dice = self.dice
        if name in values.FIELDS:
            return dice.weighed(values.FIELDS[name])
        if name == "EFFECT":
            return dice.pick(values.SOUND_EFFECTS if opcode.startswith("sound") else values.EFFECTS)
        if name == "PROPERTY":
            return dice.pick(values.PROPERTIES + [each.name for target in self.project.targets for each in target.variables])
        if name == "KEY_OPTION":
            return self.key()
        if name == "BACKDROP":
            return dice.pick(self.project.stage.costumes)
        if name == "VALUE":
            return self.argument_name(place, opcode)
        return values.text(dice)

    def key(self):
        """The key of a hat, or any key."""
        if self.dice.chance(20):
            return "any"
        self.project.keys.append(self.dice.pick(values.KEYS))
        return self.project.keys[-1]

    def argument_name(self, place, opcode):
        """The name of an argument of the own block around, or of none."""
        is_truth = opcode == "argument_reporter_boolean"
        names = [name for _, name, truth in place.procedure.arguments if truth == is_truth] if place.procedure else []
        return self.dice.pick(names) if names and self.dice.chance(92) else self.dice.pick(["a", "b", "nothing"])

    def name_field(self, place, name):
        """A variable or a list: of the target or the stage, by id or by name, or one that is not there."""
        dice, of = self.dice, "variables" if name == "VARIABLE" else "lists"
        own, stage = getattr(place.target, of), getattr(self.project.stage, of)
        named = dice.pick(own if own and dice.chance(60) else stage)
        return dice.weighed([
            ([named.name, named.ident], 44),
            ([named.name, "unknown"], 1),
            ([named.name], 1),
            ([named.name, None], 1),
            (["other", named.ident], 1),
            ([dice.pick(["new", "other"]), dice.pick(["new-id", "z"])], 1),
        ])

    # Expressions

    def kind(self, opcode, name):
        """What an input is made for: a menu, a message, a truth, a text, a count, seconds, a place of a list, or a number."""
        if (opcode, name) in MENUS:
            return "menu"
        if name == "BROADCAST_INPUT":
            return "message"
        if name in ("CONDITION", "OPERAND") or name.startswith("OPERAND") and opcode not in COMPARED:
            return "truth"
        if name in TEXTS:
            return "text"
        if name.startswith("OPERAND") or opcode == "data_setvariableto":
            return "any"
        return {"TIMES": "count", "DURATION": "seconds", "SECS": "seconds", "INDEX": "index"}.get(name, "number")

    def literal(self, kind):
        """A primitive of the editor for a place of that kind."""
        dice = self.dice
        if kind == "count":
            return [6, dice.pick(values.COUNTS) if dice.chance(97) else values.number(dice)]
        if kind == "seconds":
            return [5, dice.pick(values.SECONDS) if dice.chance(97) else values.number(dice)]
        if kind == "index":
            return [7, dice.pick(["1", "1", "2", "3", "last", "random", "any", "all", "0", "-1", "1.9", "Last", "99"])]
        if kind == "text" or kind == "any" and dice.chance(40):
            return [10, values.text(dice)]
        return [dice.pick([4, 4, 8, 9, 10]), values.any_value(dice) if dice.chance(8) else values.number(dice)]

    def menu_text(self, opcode):
        """What a menu holds."""
        dice, sprites = self.dice, [each.name for each in self.project.targets]
        if opcode == "looks_costume":
            return dice.pick([each for target in self.project.targets for each in target.costumes] + ["next costume", "previous costume", "0", "none"])
        if opcode == "looks_backdrops":
            return dice.pick(self.project.stage.costumes * 2 + ["next backdrop", "previous backdrop", "random backdrop", "2"])
        if opcode == "control_create_clone_of_menu":
            return dice.pick(["_myself_"] * 3 + sprites)
        if opcode == "sensing_keyoptions":
            return dice.pick(values.KEYS + ["any"] * 3)
        if opcode == "sound_sounds_menu":
            return "pop"
        if opcode == "sensing_of_object_menu":
            return dice.pick(["_stage_"] + sprites + ["nobody"])
        return dice.pick(["_mouse_", "_random_", "_mouse_", "_random_", "nobody"] + sprites)

    def plug(self, place, kind):
        """What may be plugged in: a variable, a list, or a reporter."""
        dice = self.dice
        if kind != "truth" and dice.chance(30):
            number = 13 if dice.chance(15) else 12
            field = self.name_field(place, "VARIABLE" if number == 12 else "LIST")
            return [number, field[0], field[1] if len(field) > 1 and field[1] else "unknown"]
        if place.target.finished_values and dice.chance(3):
            return dice.pick(place.target.finished_values)
        names = TRUTHS if kind == "truth" and dice.chance(95) else [row.name for row in of_role("Reporter")]
        return self.block(place, BY_NAME[dice.pick(names)])

    def held(self, place, opcode, name):
        """An input that is evaluated, as the editor writes it."""
        dice, kind = self.dice, self.kind(opcode, name)
        is_deep = place.depth > 5 or dice.chance(25 * place.depth)
        if kind == "truth":
            return [2, self.plug(place.deeper(), kind)] if not is_deep or dice.chance(70) else [dice.pick([1, 2]), None]
        if kind == "message":
            return self.message(place)
        shadow = self.menu(place, opcode, name) if kind == "menu" else self.literal(kind)
        if is_deep or dice.chance({"count": 85, "seconds": 85, "menu": 80, "index": 60}.get(kind, 45)):
            return [1, shadow]
        return [3, self.plug(place.deeper(), kind), shadow]

    def menu(self, place, opcode, name):
        """A menu, which is a shadow block of its own."""
        menu = MENUS[opcode, name]
        field = {"looks_backdrops": "BACKDROP", "sensing_of_object_menu": "OBJECT"}.get(menu, name)
        return self.add(place, menu, {}, {field: [self.menu_text(menu), None]}, shadow=True)

    def message(self, place):
        """A message, mostly of a higher rank than the script's own, so that messages seldom go round without end."""
        messages = self.project.messages
        above = messages if self.dice.chance(12) else messages[place.rank + 1:]
        message = self.dice.pick(above) if above else Named("x", "nobody hears")
        name = values.other_case(message.name) if self.dice.chance(8) else message.name
        shadow = [11, name, message.ident]
        return [3, self.plug(place.deeper(), "text"), shadow] if self.dice.chance(5) else [1, shadow]

    def inputs(self, place, row):
        """The inputs of a row that are no branches."""
        return {name: self.held(place, row.name, name) for name, needed in row.inputs if needed or self.dice.chance(92)}

    def block(self, place, row):
        """A block of a row that has no branches, and its id."""
        inputs = self.inputs(place, row)
        fields = {name: self.field(place, row.name, name) for name in row.fields}
        return self.add(place, row.name, inputs, fields)
