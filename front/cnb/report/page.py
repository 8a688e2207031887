"""The page of a build: one HTML file that needs no other."""

from pathlib import Path

from jinja2 import Environment, FileSystemLoader, StrictUndefined

from cnb.home import Home
from cnb.report.model import Reader, Report
from cnb.report.text import cut, duration, size
from cnb.report.tried import Limits

LARGEST_PAGE = 2_000_000
TEMPLATES = Path(__file__).with_name("templates")

MARKS = {"passes": "✓", "fails": "✕", "errs": "!", "apart": "≠", "unasked": "○", "left": "↷", "more": "…"}


def _environment() -> Environment:
    """Templates whose texts are all escaped."""
    made = Environment(loader=FileSystemLoader(TEMPLATES), autoescape=True, undefined=StrictUndefined, trim_blocks=True, lstrip_blocks=True)
    made.filters.update(size=size, duration=duration, cut=cut)
    made.globals["marks"] = MARKS
    return made


def render(report: Report) -> str:
    return _environment().get_template("page.html").render(report=report, build=report.build)


def page_of(folder: Path, home: Home) -> str:
    """The page of the build that a folder was kept of, with less of it where the page would be too large."""
    limits = Limits()
    while True:
        page = render(Reader(folder, home, limits).report())
        if len(page.encode()) <= LARGEST_PAGE or limits == limits.halved():
            return page
        limits = limits.halved()
