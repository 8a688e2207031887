"""Texts of images as they can be printed."""


def printable(text: str) -> str:
    """The text in one line, with an escape for each character that can't be printed."""
    return "".join(c if c.isprintable() else c.encode("unicode_escape", "surrogatepass").decode() for c in text)
