"""The user of an image, as the numbers that a process has."""

from pathlib import Path

from cnb.failure import Failure


def numbers_of(root: Path, user: str) -> tuple[int, int]:
    """The numbers of `user` or `user:group`, each a number or a name of the root's etc/passwd or etc/group. Without a group it
    is that of the user in etc/passwd, or else 0."""
    name, _, group = user.partition(":")
    rows = _rows(root, "passwd", 4)
    row = next((row for row in rows if name in (row[0], row[2])), None)
    if name.isdecimal():
        number = int(name)
    elif row is not None:
        number = int(row[2])
    else:
        raise _unknown(user, f"its etc/passwd has no {name!r}")
    if not group:
        return number, int(row[3]) if row is not None else 0
    if group.isdecimal():
        return number, int(group)
    found = next((row for row in _rows(root, "group", 3) if row[0] == group), None)
    if found is None:
        raise _unknown(user, f"its etc/group has no {group!r}")
    return number, int(found[2])


def _rows(root: Path, name: str, least: int) -> list[list[str]]:
    """The rows of such a file of a root, with numbers from the third column on."""
    path = root / "etc" / name
    if path.is_symlink() or path.parent.is_symlink() or not path.is_file():
        return []
    rows = (line.split(":") for line in path.read_text(encoding="utf-8", errors="replace").splitlines())
    return [row for row in rows if len(row) >= least and all(it.isdecimal() for it in row[2:least])]


def _unknown(user: str, reason: str) -> Failure:
    hint = "--user NUMBER names another one, and --user 1000 is what an image without a user runs as."
    return Failure(f"The image is for the user {user}, and {reason}.", hint=hint)
