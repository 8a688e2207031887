"""Texts for a page: what buildpacks wrote made fit to be shown, and numbers in words."""

import re

from cnb.screen import bytes_text

# A terminal's colours and movements of its cursor, and its titles.
ESCAPES = re.compile(r"\x1b(?:\[[0-?]*[ -/]*[@-~]|\][^\x07\x1b]*(?:\x07|\x1b\\)?|[@-Z\\-_])")
# Control characters, marks that turn the direction of a line, and halves of a character.
UNSHOWN = re.compile("[\x00-\x08\x0b-\x1f\x7f-\x9f\u200e\u200f\u202a-\u202e\u2066-\u2069\ud800-\udfff]")


def shown(text: str) -> str:
    """A text without what a terminal would take for orders; other characters that can't be shown are replaced."""
    return UNSHOWN.sub("\ufffd", ESCAPES.sub("", text.replace("\r\n", "\n")))


def cut(text: str, most: int) -> str:
    """A text of at most so many characters."""
    text = shown(text)
    return text if len(text) <= most else f"{text[: most - 1]}…"


def last_part(text: str, most: int) -> str:
    """The last lines of a log, if it is longer than that."""
    text = shown(text).rstrip("\n")
    if len(text) <= most:
        return text
    left_out = len(text) - most
    return f"… {left_out:,} characters before this are left out\n{text[left_out:].partition(chr(10))[2] or text[left_out:]}"


def size(number: int | None) -> str:
    return "unknown" if number is None else bytes_text(number)


def duration(seconds: float) -> str:
    if seconds < 59.95:
        return f"{seconds:.1f} s"
    whole = round(seconds)
    if whole < 3600:
        return f"{whole // 60} min {whole % 60} s"
    return f"{whole // 3600} h {whole % 3600 // 60} min"


def count(number: int, what: str) -> str:
    """A number of things: `1 layer`, `3 layers`."""
    return f"{number:,} {what}{'' if number == 1 else 's'}"
