"""How a command ends that is not done, and how a word is shown in a message."""

LONGEST_SHOWN = 40


class Refused(Exception):
    """The text, the table or the schedule is refused: in words, with number and place where the proved programs have said it."""

    def __init__(self, words, number=None, place=None, file=None):
        super().__init__(words if number is None else f"{words}: rule {number}")
        self.number, self.place, self.file = number, place, file

    def told(self, by_number):
        return f"refused {self.number} place {self.place}" if by_number and self.number else str(self)


class Misuse(Exception):
    """The command cannot be carried out as it was typed."""


def shown(word):
    """Cut where it is very long, and without what a terminal would act on."""
    cut = word if len(word) <= LONGEST_SHOWN else f"{word[:LONGEST_SHOWN]}.."
    return "'" + "".join(sign if sign.isprintable() else f"\\x{ord(sign):02x}" for sign in cut) + "'"
