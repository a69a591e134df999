"""Scripts that come to a limit or near it: open branches, long texts, clones, long lists. A few cases have one."""
from .blocks import Place
from .project import Procedure


class Heavy:
    """Adds one heavy script to a target."""

    def __init__(self, scripts, target):
        self.scripts, self.dice, self.target = scripts, scripts.dice, target

    def within(self, ident, count):
        """The block within so many branches of "if not <>", which are always taken."""
        for _ in range(count):
            truth = self.add("operator_not", {})
            ident = self.add("control_if", {"CONDITION": [2, truth], "SUBSTACK": [2, ident]})
        return ident

    def add(self, opcode, inputs):
        return self.scripts.add(Place(self.target), opcode, inputs, {})

    def repeat(self, count, ident):
        return self.add("control_repeat", {"TIMES": [1, [6, str(count)]], "SUBSTACK": [2, ident]})

    def own(self, code, warp, body):
        """An own block with that body, which is made when its calls can be; and a script that calls it under the flag."""
        procedure, place = Procedure(code, [], warp), Place(self.target)
        call = lambda: self.scripts.add(place, "procedures_call", {}, {}, mutation=self.scripts.mutation(procedure, False))
        prototype = self.scripts.add(place, "procedures_prototype", {}, {}, shadow=True, mutation=self.scripts.mutation(procedure, True))
        head = self.add("procedures_definition", {"custom_block": [1, prototype]})
        self.scripts.put_on_top(self.target, head, body(call))
        self.scripts.put_on_top(self.target, self.add("event_whenflagclicked", {}), call())

    def recursion(self):
        """A call of itself under more branches than are looked at, or under fewer."""
        self.own("deep", self.dice.chance(30), lambda call: self.within(call(), self.dice.between(4, 8)))

    def doubling(self):
        """A text that doubles at each turn."""
        place, held = Place(self.target), self.scripts.project.stage.variables[0]
        named = [12, held.name, held.ident]
        joined = lambda: self.add("operator_join", {"STRING1": [3, named, [10, "a"]], "STRING2": [3, [12, held.name, held.ident], [10, "b"]]})
        grow = lambda: self.scripts.add(place, "data_setvariableto", {"VALUE": [3, joined(), [10, ""]]}, {"VARIABLE": [held.name, held.ident]})
        self.own("grow", True, lambda call: self.repeat(self.dice.pick([12, 25]), grow()))

    def crowd(self):
        """More clones than there may be."""
        menu = self.scripts.add(Place(self.target), "control_create_clone_of_menu", {}, {"CLONE_OPTION": ["_myself_", None]}, shadow=True)
        self.own("crowd", True, lambda call: self.repeat(self.dice.pick([40, 310]), self.add("control_create_clone_of", {"CLONE_OPTION": [1, menu]})))

    def long_list(self):
        """A list of hundreds of items, and a change of it."""
        held = self.scripts.project.stage.lists[0]
        self.own("fill", True, lambda call: self.repeat(400, self.scripts.add(Place(self.target), "data_addtolist", {"ITEM": [1, [10, "é"]]}, {"LIST": [held.name, held.ident]})))


def add(scripts):
    """Adds a heavy script to some target."""
    heavy = Heavy(scripts, scripts.dice.pick(scripts.project.targets))
    scripts.dice.pick([heavy.recursion, heavy.doubling, heavy.crowd, heavy.long_list])()
