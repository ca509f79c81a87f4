"""docs/ANALYSIS.md: its schema is that of the program, and it isn't longer than 200 lines."""
import re

from pepc_analysis import schema

from .harness import ANALYSIS, Check, TOP

MOST_LINES = 200
MOST_OCTETS = 150_000


def run(check: Check) -> None:
    text = (TOP / "docs/ANALYSIS.md").read_text()
    check.holds(f"docs/ANALYSIS.md has at most {MOST_LINES} lines", text.count("\n") <= MOST_LINES)
    check.holds(
        "docs/ANALYSIS.md has the schema as it is: python3 -c 'from pepc_analysis import schema; print(schema.page())'",
        schema.page() in text,
    )
    pictures = re.findall(r"\]\((pictures/[^)]+)\)", text)
    check.same(
        "pictures of docs/ANALYSIS.md",
        sorted(set(pictures)),
        [f"pictures/{name}.png" for name in ("charged", "fleet", "policing", "subscriber-4", "volume")],
    )
    for picture in pictures:
        check.holds(
            f"{picture} is there, below {MOST_OCTETS} octets", (TOP / "docs" / picture).stat().st_size < MOST_OCTETS
        )
    check.holds(
        "the trace of demonstration is below 400,000 octets", (ANALYSIS / "demo.trace").stat().st_size < 400_000
    )
