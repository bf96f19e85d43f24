#!/usr/bin/env python3
"""Looks whether what the pages draw can be told apart, as WCAG 2 has it at level AA: a contrast of 4.5 for text, and of 3
for the frames that mark squares, in light and in dark.

    python3 tools/page/contrast.py
"""

import pathlib
import re
import sys

STYLE = pathlib.Path("crates/rbg_view/src/style.rt")
PAGE = pathlib.Path("crates/rbg_workbench/src/page.rt")
SCRIPT = pathlib.Path("crates/rbg_view/src/script.rt")
# the colours of texts, and of frames, each with those that lie below them
TEXTS = {"ink": ["page"], "soft": ["page"], "mark": ["page"]}
FRAMES = {"can": ["light", "dark", "changed"], "ring": ["light", "dark", "changed"], "mark": ["page"], "edges": ["page"]}
# the inks of signs on pieces, and the brightness below which the first one is taken
INKS = ("#ffffff", "#111111")


def brightness(colour: str) -> float:
    """The relative luminance of a colour.

    >>> brightness("#ffffff"), brightness("#000")
    (1.0, 0.0)
    """
    digits = colour.lstrip("#")
    if len(digits) == 3:
        digits = "".join(digit * 2 for digit in digits)
    parts = [int(digits[at : at + 2], 16) / 255 for at in (0, 2, 4)]
    red, green, blue = (part / 12.92 if part <= 0.03928 else ((part + 0.055) / 1.055) ** 2.4 for part in parts)
    return round(0.2126 * red + 0.7152 * green + 0.0722 * blue, 6)


def contrast(one: str, other: str) -> float:
    """The contrast of two colours.

    >>> round(contrast("#000", "#fff"))
    21
    """
    low, high = sorted((brightness(one), brightness(other)))
    return (high + 0.05) / (low + 0.05)


def themes(style: str) -> dict[str, dict[str, str]]:
    """The named colours in light and in dark."""
    light, dark = (dict(re.findall(r"--([a-z]+): (#[0-9a-f]{3,6});", part)) for part in re.findall(r":root \{([^}]*)\}", style)[:2])
    return {"light": {**light, "edges": light["line"]}, "dark": {**dark, "edges": "#8d7d60"}}


def main() -> None:
    faults = []
    for theme, colours in themes(STYLE.read_text()).items():
        for least, pairs in ((4.5, TEXTS), (3, FRAMES)):
            for front, grounds in pairs.items():
                for ground in grounds:
                    found = contrast(colours[front], colours[ground])
                    if found < least:
                        faults.append(f"{theme}: {front} on {ground}: {found:.2f}, and not {least}")
    page = PAGE.read_text()
    for name in sorted({*re.findall(r"[ ;{]color: var\(--([a-z]+)\)", page)} - set(TEXTS)):
        faults.append(f"the page has texts of the colour {name}, of which nothing is known")
    if not re.search(r"#problem\[data-kind=quiet\] { color: var\(--soft\); }", page):
        faults.append("what is said that is no fault has no quiet colour")
    script = SCRIPT.read_text()
    limit = float(re.search(r"0\.0722 \* blue < ([0-9.]+);", script).group(1))
    colours = re.search(r"const COLOURS = \{(.*?)\};\n.*?const SPARE = \[(.*?)\];", script, re.S)
    pieces = sorted(set(re.findall(r"#[0-9a-f]{6}", colours.group(1) + colours.group(2))) | {"#a99b82"})
    for colour in pieces:
        ink = INKS[brightness(colour) >= limit]
        if contrast(ink, colour) < 4.5:
            faults.append(f"a sign on a piece of {colour}: {contrast(ink, colour):.2f}")
    if faults:
        sys.exit("\n".join(faults))
    print(f"{len(pieces)} colours of pieces and the colours of both themes can be told apart")


if __name__ == "__main__":
    main()
