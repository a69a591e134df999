"""Odd and plain numbers and texts, keys, names of effects and of all that menus and fields hold."""
from .json_text import Spelled

NUMBERS = ["0", "1", "2", "3", "5", "10", "15", "45", "90", "100", "-1", "-3", "-10", "0.5", "1.5", "2.25", "-0.1", "360"]
ODD_NUMBERS = ["", " ", "abc", "1e3", "-0", " 5 ", "0x1F", "0b101", "0o17", "Infinity", "-Infinity", "NaN", "1e400", "1e-7",
               "9000000000000", "-9000000000000", "0.0000005", "0.000001", "1.", ".5", "+4", "1e", "--1", "12abc", "true", "1,5", "٣"]
COUNTS = ["0", "1", "2", "3", "4", "2.5", "1.4"]
SECONDS = ["0", "0.01", "0.033", "0.05", "0.1", "0.15", "0.3", "1", "-1"]
TEXTS = ["", "a", "b", "ab", "apple", "Apple", "banana", "hello", "Hello!", "world", "true", "false", "0", "1", "10", "9", "1a"]
ODD_TEXTS = ["é", "É", "ß", "SS", "ss", "ﬁ", "FI", "ſ", "K", "k", "İ", "Σς", "日本", "🐱", "a🐱b", "\ud83d", "\udc31\ud83d", "a\"b", "a\\b",
             "a\nb", "a\tb", "a\rb", "a\u0000b", "\u007f", "\u2028", "\u00a0", "\u3000 7 ", " a ", "e\u0301", "x" * 331, "é" * 330 + "z"]
SPELLINGS = ["0", "1", "-1", "7", "0.5", "1.0", "1e0", "10e-1", "-0", "-0.0", "46.5", "-2.8e-14", "1E3", "1e400", "-1e400", "2.0000005",
             "33.3333335", "9000000000000", "9000000000001", "1" * 30, "0." + "3" * 25]
KEYS = ["space", "enter", "left arrow", "right arrow", "up arrow", "down arrow", "a", "b", "z", "0", "7", "A", "é", "#"]
FIELDS = {
    "STOP_OPTION": [("all", 2), ("this script", 5), ("other scripts in sprite", 4), ("other scripts in stage", 2), ("nothing", 1)],
    "STYLE": [("all around", 2), ("left-right", 2), ("don't rotate", 2), ("Left-Right", 1)],
    "FRONT_BACK": [("front", 3), ("back", 3), ("middle", 1)],
    "FORWARD_BACKWARD": [("forward", 3), ("backward", 3), ("Forward", 1)],
    "NUMBER_NAME": [("number", 3), ("name", 3), ("Number", 1)],
    "WHENGREATERTHANMENU": [("TIMER", 5), ("timer", 2), ("LOUDNESS", 1)],
    "OPERATOR": [(name, 2) for name in ["abs", "floor", "ceiling", "sqrt", "sin", "cos", "tan", "asin", "acos", "atan"]] + [("Sin", 1), ("cube", 1)],
}
EFFECTS = ["COLOR", "FISHEYE", "WHIRL", "PIXELATE", "MOSAIC", "BRIGHTNESS", "GHOST", "ghost", "Color", "NONE"]
SOUND_EFFECTS = ["PITCH", "PAN"]
PROPERTIES = ["x position", "y position", "direction", "costume #", "costume name", "size", "volume", "background #", "backdrop #", "backdrop name"]


def number(dice):
    """The text of a number, as the editor keeps what was typed, or a JSON number."""
    if dice.chance(4):
        return Spelled(dice.pick(SPELLINGS))
    return dice.pick(ODD_NUMBERS if dice.chance(15) else NUMBERS)


def text(dice):
    """A text."""
    return dice.pick(ODD_TEXTS if dice.chance(20) else TEXTS)


def any_value(dice):
    """A value of a variable or an item of a list: a text, a number, a truth or null."""
    return dice.weighed([
        (text(dice), 6),
        (number(dice), 6),
        (Spelled(dice.pick(SPELLINGS)), 4),
        (dice.between(-20, 200), 4),
        (dice.chance(50), 1),
        (None, 1),
    ])


def other_case(name):
    """Another spelling of a name that is the same without case."""
    return name.upper() if name == name.lower() else name.lower()
