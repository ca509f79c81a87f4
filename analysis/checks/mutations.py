"""Pairs of a trace and a report that were changed at random: tables, or a refusal with file and line; never anything
else, and no file left."""
import collections
import os
import random
import re

from pepc_analysis.faults import Fault
from pepc_analysis.making import make_tables

from .harness import Check, nothing_left, stored_pairs

PAIRS = 5_000
REFUSALS = {3, 6, 7, 12}
WORDS = [
    b"0",
    b"1",
    b"-",
    b"18446744073709551615",
    b"9999999999999999999",
    b"99999999999999999999999",
    b"1000000000000000000",
    b"ffff",
    b"f",
    b"",
    b"up",
    b"down",
    b"held",
    b"gone",
    b"@3",
    b"@-",
    b"p",
    b"S11",
    b"SGI",
    b"S1U",
    b"ok",
    b"no",
    b"again",
    b"65533",
    b"256.1.1.1",
    b"198.51.100.9",
    b"\xff\xfe",
    b"\0",
    b"line",
    b"fence",
    b"1125899906842624",
    b"-1",
    b"05",
    b"1_0",
]


def mutated(text: bytes, drawn: random.Random) -> bytes:
    """A text with a change or a few."""
    for _ in range(drawn.choice([1, 1, 1, 2, 3])):
        lines = text.splitlines(keepends=True)
        if not lines:
            return text + drawn.choice(WORDS)
        place = drawn.randrange(len(lines))
        words = lines[place].rstrip(b"\n").split(b" ")
        change = drawn.randrange(10)
        if change < 4:  # a field becomes another
            words[drawn.randrange(len(words))] = drawn.choice(WORDS)
        elif change == 4:  # a number one more or less, or a digit turned
            numbers = [number for number, word in enumerate(words) if word.isdigit()]
            if numbers:
                number = drawn.choice(numbers)
                words[number] = str(max(int(words[number]) + drawn.choice([-1, 1, 1000]), 0)).encode()
        elif change == 5:  # an octet of its hex
            word = drawn.randrange(len(words))
            at = drawn.randrange(len(words[word]) + 1)
            words[word] = words[word][:at] + drawn.choice([b"0", b"f", b"ff", b"g"]) + words[word][at + 1 :]
        elif change == 6:
            lines.insert(place, drawn.choice(lines))
        elif change == 7:
            del lines[place]
            text = b"".join(lines)
            continue
        elif change == 8:
            other = drawn.randrange(len(lines))
            lines[place], lines[other] = lines[other], lines[place]
            text = b"".join(lines)
            continue
        else:
            text = text[: drawn.randrange(len(text) + 1)]  # cut
            continue
        lines[place] = b" ".join(words) + b"\n"
        text = b"".join(lines)
    return text


def run(check: Check) -> None:
    drawn = random.Random(64)
    small = [
        (pair.trace.read_bytes(), pair.report.read_bytes())
        for pair in stored_pairs(check.room)
        if pair.report.stat().st_size < 20_000
    ]
    folder = check.room / "mutated"
    folder.mkdir()
    trace, report, out = folder / "m.trace", folder / "m.report", folder / "m.sqlite"
    ended: collections.Counter = collections.Counter()
    for number in range(PAIRS):
        texts = list(drawn.choice(small))
        side = drawn.choice([0, 1, 1, 1])
        texts[side] = mutated(texts[side], drawn)
        trace.write_bytes(texts[0])
        report.write_bytes(texts[1])
        try:
            wrongs = make_tables(str(trace), str(report), str(out))
            ended["unequal" if wrongs else "tables"] += 1
            for wrong in wrongs:
                if not re.match(r"slot \d+ life \d+: |.*m\.trace line \d+: ", wrong):
                    check.same(f"mutated pair {number}: its line", wrong, "slot and life, or a line of the trace")
            out.unlink()
        except Fault as fault:
            ended[fault.status] += 1
            told = re.search(r"m\.(trace|report) line (\d+): .", str(fault))
            if fault.status not in REFUSALS or not told or int(told[2]) > texts[told[1] == "report"].count(b"\n") + 1:
                check.same(
                    f"mutated pair {number}: its refusal", (fault.status, str(fault)), "a status, file and line"
                )
            if os.path.exists(out):
                check.same(f"mutated pair {number}: a file is left", True, False)
        except (Exception, RecursionError) as why:
            check.same(f"mutated pair {number}", f"{type(why).__name__}: {why}", "tables or a refusal")
    nothing_left(check, "mutated pairs", folder)
    print(
        f"  of {PAIRS:,} mutated pairs: "
        + ", ".join(
            f"{count} {what if isinstance(what, str) else f'status {what}'}"
            for what, count in sorted(ended.items(), key=str)
        )
    )
    for what in ("tables", "unequal", 6, 12):
        check.holds(f"mutated pairs: some end as {what}", ended[what] >= 20)
