"""Monitors of a project."""
from .json_text import Spelled

OF_SPRITES = ["motion_xposition", "motion_yposition", "motion_direction", "looks_size", "looks_costumenumbername"]
OF_ALL = ["sensing_timer", "sensing_answer", "looks_backdropnumbername", "sensing_loudness", "sound_volume"]


def monitor(dice, ident, opcode, params, sprite):
    """A monitor as the file has it."""
    out = {"id": ident, "mode": dice.pick(["default", "large", "slider"]), "opcode": opcode, "params": params, "spriteName": sprite}
    out.update({"value": 0, "width": 0, "height": 0, "x": 5, "y": Spelled("5.5"), "visible": dice.chance(80)})
    out.update({"sliderMin": 0, "sliderMax": 100, "isDiscrete": True})
    return out


def of_names(dice, target):
    """Monitors of some of a target's variables and lists."""
    owner = None if target.is_stage else target.name
    found = [(each.ident, "data_variable", {"VARIABLE": each.name}) for each in target.variables]
    found += [(each.ident, "data_listcontents", {"LIST": each.name}) for each in target.lists]
    owner = "nobody" if dice.chance(2) else owner
    return [monitor(dice, "gone" if dice.chance(2) else ident, opcode, params, owner) for ident, opcode, params in found if dice.chance(70)]


def of_state(dice, project):
    """Some monitors of what sprites and the stage show, also of a sprite that is not there."""
    sprite = dice.pick([each.name for each in project.targets] + ["nobody"])
    opcode = dice.pick(OF_SPRITES + OF_ALL)
    params = {"NUMBER_NAME": dice.pick(["number", "name", None])} if opcode.endswith("numbername") and dice.chance(80) else {}
    owner = None if opcode in OF_ALL and dice.chance(70) or dice.chance(5) else sprite
    return monitor(dice, "%s_%s" % (sprite, opcode), opcode, params, owner)


def monitors(dice, project):
    """The monitors of a project, in some order."""
    found = [each for target in project.targets for each in of_names(dice, target)]
    found += [of_state(dice, project) for _ in range(dice.weighed([(0, 4), (1, 3), (2, 2), (4, 1)]))]
    return dice.shuffled(found)
