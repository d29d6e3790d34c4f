"""Numbers, names and labels, and what can go wrong."""

LEAST = -(2 ** 63)
GREATEST = 2 ** 63 - 1

LETTERS = frozenset(b"abcdefghijklmnopqrstuvwxyzABCDEFGHIJKLMNOPQRSTUVWXYZ_")
DIGITS = frozenset(b"0123456789")
WORD_BYTES = LETTERS | DIGITS

FAULT_NAMES = {
    "F1": "Overflow", "F2": "ZeroDivisor", "F3": "Index", "F4": "EmptyVector",
    "F5": "Lengths", "F6": "VaryCount", "F7": "Weight", "F8": "Function",
}
CAUSE_NAMES = {
    "S1": "Syntax", "S2": "NameTaken", "S3": "UnknownName", "S4": "UnknownColumn",
    "S5": "UnknownFunction", "S7": "WrongType", "S8": "WrongCount", "S10": "AliasTarget",
    "S11": "Late", "S12": "BadEdges", "S13": "TooMany", "S14": "WrongKind",
    "E1": "BadByte", "E2": "BadNumber", "E3": "Unexpected", "E4": "TooLong",
    "B1": "Header", "B2": "FieldCount", "B3": "BadInt", "B4": "BadVec", "B5": "TooMany",
    "B6": "BadCut",
    "J1": "NoKey", "J2": "NameTaken", "J3": "TooManyColumns", "J4": "Duplicate", "J5": "TooLarge",
}


class Fault(Exception):
    """An evaluation that ends the loop."""

    def __init__(self, kind):
        super().__init__(kind)
        self.kind = kind


class Refusal(Exception):
    """An input that isn't taken: its exit status and its line."""

    def __init__(self, status, line):
        super().__init__(line)
        self.status = status
        self.line = line


class Cause(Exception):
    """The cause of a refused expression, with its place where it is one of the text."""

    def __init__(self, cause, place=None):
        super().__init__(cause)
        self.cause = cause
        self.place = place


def is_name(text):
    return (1 <= len(text) <= 64 and text[0] in LETTERS and all(b in WORD_BYTES for b in text)
            and text not in (b"true", b"false"))


def is_label(text):
    return 1 <= len(text) <= 64 and all(0x20 <= b <= 0x7E and b != 0x22 for b in text)


def integer(text):
    """The number of a canonical integer, or None."""
    digits = text[1:] if text[:1] == b"-" else text
    if not digits or any(b not in DIGITS for b in digits):
        return None
    if digits[0] == 0x30 and text != b"0":
        return None
    if len(digits) > 19:
        return None
    value = int(text)
    return value if LEAST <= value <= GREATEST else None


def in_64_bits(value):
    if not LEAST <= value <= GREATEST:
        raise Fault("F1")
    return value
