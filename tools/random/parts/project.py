"""What a project has beside its scripts: its targets, their variables and lists, messages, own blocks and monitors."""
from . import values
from .json_text import Spelled
from .table import BY_NAME

SOUP = "!#%()*+,-./:;=?@[]^_`{|}~ABCDEFGHIJKLMNOPQRSTUVWXYZabcdefghijklmnopqrstuvwxyz0123456789"


class Named:
    """A variable, a list or a message: its id, its name, and what it holds at first."""

    def __init__(self, ident, name, held=None):
        self.ident, self.name, self.held = ident, name, held


class Procedure:
    """An own block: its code, its arguments as triples (id, name, whether it is a truth), and whether it is warp."""

    def __init__(self, code, arguments, warp):
        self.code, self.arguments, self.warp = code, arguments, warp


class Target:
    """The stage or a sprite."""

    def __init__(self, name, is_stage):
        self.name, self.is_stage = name, is_stage
        self.variables, self.lists, self.costumes, self.procedures = [], [], [], []
        self.blocks = {}
        self.finished_commands, self.finished_values = [], []

    def finish(self):
        """Keeps the blocks of whole scripts apart: a further link to one of them makes no cycle."""
        for ident, block in self.blocks.items():
            kind = BY_NAME[block["opcode"]].role if isinstance(block, dict) and block["opcode"] in BY_NAME else None
            known = {"Command": self.finished_commands, "Reporter": self.finished_values}.get(kind)
            if known is not None and ident not in known:
                known.append(ident)


class Project:
    """All that scripts can name."""

    def __init__(self, dice):
        self.dice, self.made, self.keys = dice, 0, []
        self.stage = self.target("Stage", True)
        self.sprites = [self.target(name, False) for name in self.sprite_names()]
        self.targets = [self.stage] + self.sprites
        self.messages = [Named(self.ident(), name) for name in ["message1", "go", "Straße"][:dice.between(1, 3)]]

    def ident(self):
        """An id that no other thing of the project has."""
        self.made += 1
        return "".join(self.dice.pick(SOUP) for _ in range(self.dice.between(1, 6))) + str(self.made)

    def sprite_names(self):
        names = self.dice.shuffled(["Cat", "Ball", "Zoé", "a \"b\"\\", "7", "Sprite1"])[:self.dice.weighed([(0, 1), (1, 6), (2, 6), (3, 3)])]
        return names + names[:1] if self.dice.chance(3) else names

    def target(self, name, is_stage):
        """A target with its variables, lists and costumes."""
        dice, target = self.dice, Target(name, is_stage)
        names = dice.shuffled(["score", "n", "i", "text", "my variable", "É", "size"])
        target.variables = [Named(self.ident(), each, values.any_value(dice)) for each in names[:dice.between(1 if is_stage else 0, 3)]]
        names = dice.shuffled(["list", "items", "n", "ﬁ"])
        target.lists = [Named(self.ident(), each, self.items()) for each in names[:dice.between(1 if is_stage else 0, 2)]]
        names = dice.shuffled(["one", "two", "3", "next costume", "Größe", "random backdrop", "costume1"])
        target.costumes = names[:dice.between(1, 4)] + (names[:1] if dice.chance(5) else [])
        return target

    def items(self):
        return [values.any_value(self.dice) for _ in range(self.dice.weighed([(0, 3), (1, 2), (3, 4), (6, 1)]))]


def shown(dice, target, layer):
    """The members that tell where a target is and how it looks."""
    out = {"currentCostume": dice.weighed([(0, 5), (1, 3), (dice.between(-3, 9), 2), (Spelled("1.5"), 1)]), "layerOrder": layer, "volume": dice.pick([100, 100, 50, Spelled("33.5")])}
    if target.is_stage:
        out.update({"tempo": 60, "videoTransparency": 50, "videoState": "on", "textToSpeechLanguage": None})
        return out
    out.update({"visible": dice.chance(85), "x": Spelled(dice.pick(["0", "0", "10", "-100.5", "46.333333", "300"])), "y": Spelled(dice.pick(["0", "0", "-50", "1e2", "0.25"]))})
    out.update({"size": Spelled(dice.pick(["100", "100", "50", "33.5", "-5", "1e400"])), "direction": Spelled(dice.pick(["90", "90", "0", "-90", "180", "45.5", "270", "1e400"]))})
    out.update({"draggable": False, "rotationStyle": dice.pick(["all around", "all around", "left-right", "don't rotate", "odd"])})
    return out


def costume(name):
    return {"name": name, "bitmapResolution": 1, "dataFormat": "svg", "assetId": "cd21514d0531fdffb22204e0ec5ed84a",
            "md5ext": "cd21514d0531fdffb22204e0ec5ed84a.svg", "rotationCenterX": 48, "rotationCenterY": Spelled("50.5")}


def thinned(dice, members, needed):
    """The members, of which those that have a default are left out or null at times."""
    out = {}
    for name, value in members.items():
        if name in needed or dice.chance(97):
            out[name] = value
        elif dice.chance(50) and name not in ("variables", "lists"):
            out[name] = None
    return out


def target_document(dice, project, target, layer):
    """A target as the file has it."""
    members = {"isStage": target.is_stage, "name": target.name}
    members["variables"] = {each.ident: [each.name, each.held] for each in target.variables}
    members["lists"] = {each.ident: [each.name, each.held] for each in target.lists}
    members["broadcasts"] = {each.ident: each.name for each in project.messages} if target.is_stage else {}
    members["blocks"] = target.blocks
    members["comments"] = {"c": {"blockId": next(iter(target.blocks), None), "x": Spelled("1.5"), "y": 2, "width": 200, "height": 120, "minimized": False, "text": "é\n"}}
    members["costumes"] = [costume(name) for name in target.costumes]
    members["sounds"] = []
    members.update(shown(dice, target, layer))
    return thinned(dice, members, ("isStage", "name", "costumes", "blocks"))


def document(dice, project, monitors):
    """The whole file."""
    order = list(project.targets)
    if dice.chance(10):
        order = dice.shuffled(order)
    layers = dice.shuffled(range(1, len(order) + 1))
    if dice.chance(15):
        layers = [dice.between(-2, 2) for _ in order]
    targets = [target_document(dice, project, target, 0 if target.is_stage else layer) for target, layer in zip(order, layers)]
    return {"targets": targets, "monitors": monitors, "extensions": [], "meta": {"semver": "3.0.0", "vm": "2.3.4", "agent": ""}}
