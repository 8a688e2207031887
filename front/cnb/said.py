"""The lines of the program, found in streams in which buildpacks write too.

A buildpack may end without an end of line. Then the program's line is the last part of the line that is read."""

import re

PHASES = ("ANALYZING", "DETECTING", "RESTORING", "BUILDING", "EXPORTING")
NAME = r"[A-Za-z0-9./-]+@[0-9]+\.[0-9]+\.[0-9]+"
REFUSED = r"error [1-9][0-9]? [A-Z][A-Za-z0-9]*(?: .*)?"
ASKED = re.compile(
    rf"(.*?)asked ({NAME}): (pass|fail|not run|error, (?:exit code -?[0-9]+|ended by a signal|its plan can't be read))"
)
BEGUN = re.compile(rf"(.*)===> ({'|'.join(PHASES)})")

# The results of the phases in which buildpacks run. In the others nobody else writes, and `create` prints all at its end.
RESULTS = {
    "DETECTING": re.compile(rf"pass {NAME}|plan [0-9]+|{REFUSED}"),
    "BUILDING": re.compile(rf"built {NAME}|{REFUSED}"),
}
ANY_RESULT = re.compile(r"(?:run|previous|pass|plan|restored|built|added|reused|cache|image|checked|error) \S.*")
MOST_RESULTS = 1000


def asked_in(line: str) -> tuple[str, str, str] | None:
    """What a buildpack printed in front of a line `asked`, the buildpack that it names, and how its child ended."""
    found = ASKED.fullmatch(line)
    return (found[1], found[2], found[3]) if found else None


def phase_in(line: str) -> tuple[str, str] | None:
    """What a buildpack printed in front of the line with which a phase of `create` begins, and the phase."""
    found = BEGUN.fullmatch(line)
    return (found[1], found[2]) if found else None


def result_in(line: str, phase: str) -> tuple[str, str]:
    """What a buildpack printed, and the result that stands behind it: either may be empty."""
    form = RESULTS.get(phase, ANY_RESULT)
    if form.fullmatch(line):
        return "", line
    found = re.fullmatch(rf"(.+?)({form.pattern})", line)
    return (found[1], found[2]) if found else (line, "")


def results_in(printed: str, phase: str) -> list[str]:
    """The results at the end of what a phase printed."""
    found: list[str] = []
    for line in reversed(printed.rstrip("\n").split("\n")[-MOST_RESULTS:]):
        before, result = result_in(line, phase)
        if result:
            found.insert(0, result)
        if before or not result:
            break
    return found


def refusal_in(printed: str, status: int) -> str | None:
    """The line that a refused command prints last, as `error 31 NoImage shop`."""
    found = re.fullmatch(rf".*?(error {status} [A-Z][A-Za-z0-9]*(?: .*)?)", printed.rstrip("\n").rpartition("\n")[2])
    return found[1] if found else None
