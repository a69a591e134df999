"""Faults of a project: one is put into a document, or into the bytes of its text."""
from .json_text import Members, Spelled
from .table import BY_NAME

# What a document may hold in place of a value that has its shape, or has not.
STRANGE = [None, True, 0, 5, "x", "", [], {}, [1], [None], {"a": 1}, Spelled("1.5"), [13, "a", "b"], [2, None]]


def block_objects(document):
    """The blocks of all targets that are objects, each with the blocks of its target."""
    return [(target["blocks"], block) for target in document["targets"] for block in target["blocks"].values() if isinstance(block, dict)]


def of_known(dice, document, has):
    """A block whose row has something, with its row, or None."""
    found = [(block, BY_NAME[block["opcode"]]) for _, block in block_objects(document) if block["opcode"] in BY_NAME]
    found = [(block, row) for block, row in found if has(block, row)]
    return dice.pick(found) if found else None


def dangling_next(dice, document):
    """The `next` of a block names no block."""
    found = of_known(dice, document, lambda block, row: True)
    if found:
        found[0]["next"] = "no block"


def dangling_input(dice, document):
    """An input names no block."""
    found = of_known(dice, document, lambda block, row: block["inputs"])
    if found:
        found[0]["inputs"][dice.pick(list(found[0]["inputs"]))] = [2, "no block"]


def unknown_opcode(dice, document):
    """A block has an opcode that is not known."""
    found = of_known(dice, document, lambda block, row: True)
    if found:
        found[0]["opcode"] = dice.pick(["pen_clear", "sensing_touchingobject", "motion_ifonedgebounce", "", "Motion_setx"])


def missing_input(dice, document):
    """An input is not there, or holds nothing."""
    found = of_known(dice, document, lambda block, row: block["inputs"])
    if found:
        name = dice.pick(list(found[0]["inputs"]))
        found[0]["inputs"][name] = [1, None]
        if dice.chance(50):
            del found[0]["inputs"][name]


def missing_field(dice, document):
    """A field that the opcode needs is not there."""
    found = of_known(dice, document, lambda block, row: row.fields and block["fields"])
    if found:
        del found[0]["fields"][dice.pick(list(found[0]["fields"]))]


def logarithm(dice, document):
    """A function of a logarithm or a power."""
    found = of_known(dice, document, lambda block, row: "OPERATOR" in block["fields"])
    if found:
        found[0]["fields"]["OPERATOR"] = [dice.pick(["ln", "log", "e ^", "10 ^", "LN", "E ^"]), None]


def cycle(dice, document):
    """A link leads to a block at random, often back."""
    found = [(blocks, block) for blocks, block in block_objects(document) if block.get("next")]
    if found:
        blocks, block = dice.pick(found)
        block["next"] = dice.pick(list(blocks))


def wrong_place(dice, document):
    """An input holds a block at random."""
    found = [(blocks, block) for blocks, block in block_objects(document) if block.get("inputs")]
    if found:
        blocks, block = dice.pick(found)
        block["inputs"][dice.pick(list(block["inputs"]))] = [2, dice.pick(list(blocks))]


def no_mutation(dice, document):
    """A prototype or a call lacks its mutation, or a text of it, or has another there."""
    found = [block for _, block in block_objects(document) if block.get("mutation")]
    if not found:
        return
    block = dice.pick(found)
    name = dice.pick(["mutation", "proccode", "argumentids", "argumentnames", "argumentdefaults", "warp"])
    if name == "mutation":
        del block["mutation"]
    elif name in block["mutation"]:
        block["mutation"][name] = dice.pick(["[]", "[\"a\"]", "[1]", "[", "yes", 5, None, "[null]", "[{\"a\":1}]", True])


def stages(dice, document):
    """No stage, or two."""
    target = dice.pick(document["targets"])
    target["isStage"] = not target["isStage"]


def holders(value):
    """All pairs of a list or object and a place in it, below a value."""
    found = []
    pairs = value.items() if isinstance(value, dict) else enumerate(value) if isinstance(value, list) else []
    for key, held in pairs:
        found.append((value, key))
        found += holders(held)
    return found


def strange_value(dice, document):
    """Some value is replaced by a strange one, or left out."""
    holder, key = dice.pick(holders(document))
    if dice.chance(20):
        del holder[key]
    else:
        holder[key] = dice.pick(STRANGE)


def repeated_name(dice, document):
    """A name comes twice in an object: the later value counts. No fault."""
    target = dice.pick(document["targets"])
    members = Members(target.items())
    members.insert(dice.below(len(members)), dice.pick([("name", "before"), ("size", 7), ("volume", "loud"), ("blocks", {}), ("isStage", True)]))
    document["targets"][document["targets"].index(target)] = members


def deep(dice, document):
    """Brackets nest 256 or 257 deep."""
    nested = []
    for _ in range(dice.pick([254, 255]) - 1):
        nested = [nested]
    document["more"] = nested


def reporters_deep(dice, document):
    """Reporters nest 256 or 257 deep in a script."""
    blocks, held = document["targets"][0]["blocks"], None
    for number in range(dice.pick([256, 257])):
        blocks["deep%d" % number] = {"opcode": "operator_not", "inputs": {"OPERAND": [2, held]}}
        held = "deep%d" % number
    blocks["deep-if"] = {"opcode": "control_if", "inputs": {"CONDITION": [2, held]}}
    blocks["deep-hat"] = {"opcode": "event_whenflagclicked", "next": "deep-if", "topLevel": True}


IN_DOCUMENT = [(dangling_next, 3), (dangling_input, 3), (unknown_opcode, 3), (missing_input, 4), (missing_field, 3), (logarithm, 2), (cycle, 3),
               (wrong_place, 4), (no_mutation, 3), (stages, 1), (strange_value, 12), (repeated_name, 2), (deep, 1), (reporters_deep, 1)]


def in_text(dice, text):
    """A fault in the bytes: the text is cut, or has a byte more, less or other."""
    at = dice.below(len(text))
    more = dice.pick([b"{", b"}", b"[", b"]", b",", b":", b'"', b"\\", b"0", b"-", b".", b"e", b"\xff", b"\xed\xa0\xbd", b"\x01", b"\n", b" ", b"\xef\xbb\xbf", b"//", b"NaN"])
    return dice.weighed([
        (text[:at], 2),
        (text[:at] + more + text[at:], 5),
        (text[:at] + text[at + 1:], 3),
        (text[:at] + more + text[at + 1:], 3),
        (more + text, 1),
        (text + more, 1),
    ])
