"""Writes JSON texts in many ways: with or without blanks, with escapes, with numbers as they are spelled."""
import json


class Spelled(str):
    """A number by its own text."""


class Members(list):
    """The members of an object as pairs (name, value); a name may come twice."""


class Writer:
    """Writes one document, in a way that the dice choose."""

    def __init__(self, dice):
        self.dice = dice
        self.blanks = dice.chance(15)
        self.escapes = dice.chance(15)
        self.ascii = dice.chance(40)

    def blank(self):
        return self.dice.pick([" ", "", "\n", "\t", "  ", "\r\n"]) if self.blanks else ""

    def letter(self, letter):
        """A letter of a text, some by the escape \\u that every letter of four digits has."""
        if self.escapes and ord(letter) < 0x10000 and self.dice.chance(5):
            return self.dice.pick(["\\u%04x", "\\u%04X"]) % ord(letter)
        if 0xD800 <= ord(letter) < 0xE000 or self.ascii:
            return json.dumps(letter)[1:-1]
        return json.dumps(letter, ensure_ascii=False)[1:-1]

    def text(self, text):
        return '"' + "".join(self.letter(letter) for letter in text) + '"'

    def listed(self, opening, parts, closing):
        between = self.blank() + "," + self.blank()
        return opening + self.blank() + between.join(parts) + self.blank() + closing

    def value(self, value):
        """The text of a value."""
        if isinstance(value, Spelled):
            return str(value)
        if isinstance(value, str):
            return self.text(value)
        if isinstance(value, dict):
            value = Members(value.items())
        if isinstance(value, Members):
            return self.listed("{", [self.text(name) + self.blank() + ":" + self.blank() + self.value(held) for name, held in value], "}")
        if isinstance(value, list):
            return self.listed("[", [self.value(item) for item in value], "]")
        return json.dumps(value)


def written(dice, document):
    """The bytes of a document."""
    writer = Writer(dice)
    return (writer.blank() + writer.value(document) + writer.blank()).encode("utf-8")
