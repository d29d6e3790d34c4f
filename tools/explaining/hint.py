"""What is said: a sentence, and under it a line of the script or table with carets at the place."""
import difflib

WIDEST = 100


class Hint:
    """A sentence; with `line`, some bytes, and the place and length of what it means in them."""

    def __init__(self, text, line=None, place=0, length=1):
        self.text = text
        self.line = line
        self.place = place
        self.length = length

    def lines(self, head):
        """The lines that are shown; `head` tells where it is."""
        shown = ["rdf: " + head + self.text]
        if self.line is None:
            return shown
        begin = max(0, self.place - WIDEST // 2) if len(self.line) > WIDEST else 0
        cut = self.line[begin:begin + WIDEST]
        before = ".." if begin else ""
        after = ".." if begin + WIDEST < len(self.line) else ""
        length = max(1, min(self.length, len(cut) + 1 - (self.place - begin)))
        shown.append("    " + before + printable(cut) + after)
        shown.append("    " + " " * (len(before) + self.place - begin) + "^" * length)
        return shown


def printable(text):
    """Bytes as text with one letter each."""
    return "".join(chr(byte) if 0x20 <= byte <= 0x7E else " " if byte == 0x09 else "?" for byte in text)


def word(text):
    """Bytes in quotes, cut where they are long."""
    shown = printable(text[:40])
    return "'" + shown + ("..'" if len(text) > 40 else "'")


def nearest(name, names):
    """The one of some names that is most like a name, or None."""
    folded = {}
    for other in names:
        folded.setdefault(other.lower(), other)
    found = difflib.get_close_matches(printable(name.lower()), [printable(each) for each in folded], 1, 0.6)
    return folded.get(found[0].encode()) if found else None


def meant(name, names):
    """The end of a sentence that names the most likely name, or the few that there are."""
    names = sorted(set(names))
    near = nearest(name, names)
    if near is not None:
        return "; is %s meant?" % word(near)
    if 0 < len(names) <= 6:
        return "; there %s %s" % ("is" if len(names) == 1 else "are", listed(word(each) for each in names))
    return ""


def listed(words):
    """Words as `a, b and c`."""
    words = list(words)
    return words[0] if len(words) == 1 else ", ".join(words[:-1]) + " and " + words[-1]


def counted(number, thing):
    return "%d %s%s" % (number, thing, "" if number == 1 else "s")
