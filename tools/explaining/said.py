"""The line with which a program refuses its inputs or tells a fault."""
import re


class Said:
    """What a line says: which input, its cause as `S4`, and the numbers in it; None for what it doesn't say."""

    def __init__(self, what, found):
        self.what = what
        parts = found.groupdict()
        self.cause = parts.get("cause") and parts["cause"].decode()
        self.label = parts.get("label")
        self.name = parts.get("name")
        self.line, self.place, self.entry, self.field, self.number = (
            int(parts[key]) if parts.get(key) else None for key in ("line", "place", "entry", "field", "number"))


FORMS = [
    ("script", rb"script refused(?: at line (?P<line>\d+)(?: place (?P<place>\d+))?: (?P<cause>\w+) \w+"
               rb"|: longer than 65536 bytes)"),
    ("table", rb"table refused(?: at (?:header|entry (?P<entry>\d+))(?: field (?P<field>\d+))?: (?P<cause>\w+) \w+"
              rb"|: longer than 67108864 bytes)"),
    ("friend", rb"friend refused(?:(?: at (?:header|entry (?P<entry>\d+)))?(?: field (?P<field>\d+))?: (?P<cause>\w+) \w+"
               rb"|: longer than 67108864 bytes)"),
    ("table", rb"table (?P<name>.+) refused(?: at (?:header|entry (?P<entry>\d+))(?: field (?P<field>\d+))?: (?P<cause>\w+) \w+"
              rb"|: longer than 67108864 bytes)"),
    ("fault", rb"fault(?: in file (?P<number>\d+))? at entry (?P<entry>\d+) in (?P<label>\S+): (?P<cause>\w+) \w+"),
    ("node", rb"no node \w+"),
    ("column", rb"no column (?P<name>\w+)"),
    ("variation", rb"no variation \w+:\w+"),
    ("columns", rb"too many columns"),
    ("long", rb"(?P<name>snapshot|part|files) longer than \d+ bytes"),
    ("span", rb"span refused"),
    ("file", rb"file (?P<name>.+) refused at line (?P<line>\d+)"),
    ("differs", rb"file (?P<name>.+) differs"),
    ("covered", rb"(?:cluster|file) (?P<number>\d+) isn't covered once"),
]


def said_in(output):
    """What the last line of an output says, or None where that is no refusal and no fault."""
    last = output.rstrip(b"\n").rpartition(b"\n")[2]
    for what, form in FORMS:
        found = re.fullmatch(form, last)
        if found:
            return Said(what, found)
    return None
