"""How often each opcode stands in the scripts of projects that have no fault."""
from .table import BY_NAME, ROWS

HEADS = ("Hat", "Definition")


def links(block):
    """The ids to which a block leads."""
    inputs = [held[1] for held in block.get("inputs", {}).values() if isinstance(held[1], str)]
    return inputs + ([block["next"]] if block.get("next") else [])


def is_head(block):
    """Whether a block heads a script."""
    return isinstance(block, dict) and block["topLevel"] and block["opcode"] in BY_NAME and BY_NAME[block["opcode"]].role in HEADS


def checked(blocks):
    """The blocks of a target to which links lead from its heads."""
    left, found = [ident for ident, block in blocks.items() if is_head(block)], {}
    while left:
        ident = left.pop()
        if ident not in found:
            found[ident] = blocks[ident]
            left += links(blocks[ident])
    return list(found.values())


def count(counts, document):
    """Adds the opcodes of the scripts of a document; a variable or list that is plugged in counts for its reporter."""
    blocks = [block for target in document["targets"] for block in checked(target["blocks"])]
    names = [block["opcode"] for block in blocks]
    plugged = [held[1][0] for block in blocks for held in block["inputs"].values() if isinstance(held[1], list)]
    names += [{12: "data_variable", 13: "data_listcontents"}.get(number) for number in plugged]
    for name in names:
        if name in counts:
            counts[name] += 1


def told(counts):
    """A line for each opcode of the profile, the rarest first, and how many stand nowhere."""
    lines = ["%8d %s" % (counts[name], name) for name in sorted(counts, key=lambda name: (counts[name], name))]
    return lines + ["%d opcodes, %d of them in no script" % (len(counts), sum(1 for name in counts if not counts[name]))]


def none():
    """The counts before any case."""
    return {row.name: 0 for row in ROWS}
