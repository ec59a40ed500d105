"""Words and numbers as messages have them, for the readers beside this file. Unproved."""


def counted(number, what):
    return f"{number} {what}{'' if number == 1 else 's'}"


def words(numbers):
    return " ".join(map(str, numbers)) or "nothing"
