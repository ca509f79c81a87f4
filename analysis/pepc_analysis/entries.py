"""The entries of a report by their grammar (docs/FORMATS.md, The report): one pattern a kind, with the newline behind.

A number has at most 18 digits here, as SQLite's integers have 63 bits. Octets are [0-9a-f]+, and that their digits are
even in number is looked at apart: a pattern of pairs would take half of the whole time."""
import re

NUMBER = rb"(0|[1-9][0-9]{0,17})"
HEX = rb"([0-9a-f]+)"
ADDRESS = rb"([0-9.]{7,15})"
OCTET = rb"(?:25[0-5]|2[0-4][0-9]|1[0-9][0-9]|[1-9]?[0-9])"


def pattern(text: bytes) -> re.Pattern[bytes]:
    """A pattern in which # is a number, & an address and * octets."""
    return re.compile(text.replace(b"#", NUMBER).replace(b"&", ADDRESS).replace(b"*", HEX) + rb"\n")


PACKET = pattern(
    rb"P # # # # (?:(up) # *|(down) # & *|(nobearer|spoof)|(idle|policed) #|(held) # (-|[0-9a-f]+))"
    rb"(?: @([0-9]|[1-5][0-9]|6[0-3]|-)( p)?)?"
)
COMMAND = pattern(rb"C # # # (ok|no|again) (-|[0-9a-f]+)")
NOTE = pattern(rb"N # ([ -~]+)")
REFUSED = pattern(rb"F # # ([cp])")
END_MARKER = pattern(rb"M # # # & *")
FATE = pattern(rb"H # # # (?:(down) # & *|(policed|gone) #)")
RECORD = pattern(rb"R # # # # # # # # # (-|0|[1-9][0-9]{0,15}) (-|0|[1-9][0-9]{0,15}) " rb"(volume|qos|gone)")
OPEN_COUNTER = pattern(rb"O # # # # # # # # #")
DOTTED = re.compile(rb"\.".join([OCTET] * 4))
MOVED = re.compile(rb"(move|stay) # #".replace(b"#", NUMBER))
BIG = re.compile(rb"(?: |^)([1-9][0-9]{18,19})(?: |\n|$)")

MOST_SLOT, MOST_MOMENT, MOST_OCTET = 65_532, 2**50 - 1, 255
MOST_COUNT = 10**12  # of a record: a piece ends at 1,000,000 octets, so that sums of 63 bits never pass their end


def why_none(entry: bytes) -> str:
    """Why a line of a report that no pattern takes is no entry."""
    big = BIG.search(entry)
    if big:
        return f"{big[1].decode()}: a number of more than 18 digits"
    if not entry.endswith(b"\n"):
        return "no entry: it is cut, as no newline stands behind it"
    return "no entry: " + repr(entry[:40].decode("latin-1").rstrip("\n"))


def class_of(note: str) -> str:
    """A note's words without slot, slice, element and octets: `s11 missing`, `s1u ip short`, `move`, `line moment`."""
    words = note.split(" ")
    if words[0] in ("s11", "s1u", "sgi", "tft", "line"):
        return " ".join(words[: 3 if words[1:2] == ["ip"] else 2])
    return words[0]
