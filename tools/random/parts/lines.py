"""Input scripts: lines of every kind, and a line that is refused."""
from . import values

BAD_LINES = [b"jump", b"flag ", b" flag", b"frame  0 1 0", b"down left", b"down", b"mouse a 0", b"mouse 1 ", b"frame 01 1 0", b"frame 0 0 1",
             b"frame 0 10001 1", b"frame 0 1 1000001", b"frame 9000000000001 1 1", b"mouse 241 0", b"mouse 0 -181", b"mouse -0 0", b"click -1",
             b"click 4294967296", b"turbo", b"turbo ON", b"button", b"\xff", b"down \xff", b"# \xc3", b"answer\xff", b"flag\r", b"down ab", b"frame 1 1"]


def frame(dice, clock, is_heavy):
    """A frame line, mostly of few passes and a small warp budget."""
    if is_heavy:
        return b"frame %d %d 3000" % (clock, dice.between(1, 3))
    passes = dice.weighed([(1, 16), (2, 16), (3, 16), (5, 12), (8, 8), (30, 4), (100, 1)])
    warp = dice.weighed([(0, 20), (1, 10), (3, 10), (10, 10), (30, 10), (100, 10), (3000, 1)])
    return b"frame %d %d %d" % (clock, passes, warp)


def event(dice, targets, keys):
    """A line that is no frame; most of the keys are such as the project names."""
    key = dice.pick(keys if keys and dice.chance(75) else values.KEYS)
    return dice.weighed([
        ("flag", 4),
        ("stop", 1),
        ("down " + key, 5),
        ("up " + key, 3),
        ("mouse %d %d" % (dice.between(-240, 240), dice.between(-180, 180)), 3),
        ("button " + dice.pick(["down", "up"]), 3),
        ("click %d" % dice.below(targets + 3), 5),
        ("answer " + values.text(dice).replace("\n", " "), 4),
        ("answer", 1),
        ("turbo " + dice.pick(["on", "off"]), 1),
        ("# " + values.text(dice).replace("\n", " "), 1),
        ("", 1),
    ])


def good(dice, targets, keys, is_heavy):
    """Lines that are all good: mostly a flag, then events and some frames, whose clock never goes back."""
    lines, clock = [b"flag"] if dice.chance(90) else [], dice.pick([0, 0, 5, 1000])
    for _ in range(dice.between(2, 10)):
        for _ in range(dice.weighed([(0, 5), (1, 5), (2, 3), (4, 1)])):
            lines.append(event(dice, targets, keys).encode("utf-8", "replace"))
        lines.append(frame(dice, clock, is_heavy))
        clock += dice.pick([0, 1, 16, 33, 34, 100, 500, 1000])
    return lines


def script(dice, targets, keys, is_heavy, is_bad):
    """The bytes of an input script; a bad one has one bad line at some place."""
    lines = good(dice, targets, keys, is_heavy)
    if is_bad:
        bad = dice.pick(BAD_LINES + [b"frame 7 1 1\nframe 6 1 1"] * 3)
        lines.insert(dice.below(len(lines) + 1), bad)
    return b"\n".join(lines) + (b"\n" if dice.chance(70) else b"")
