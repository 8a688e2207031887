"""The page of a build in a headless Chromium: at two widths, light and dark, and printed."""

import tempfile
from collections.abc import Callable, Iterator
from pathlib import Path

import pytest
from tests.report_browser import CHROMIUM, Browser, browsing
from tests.report_builds import HOSTILE, a_build, a_failed_build, a_refused_detection, home_in, plan_of

from cnb.home import Home
from cnb.report.page import page_of

pytestmark = pytest.mark.skipif(CHROMIUM is None, reason="there is no chromium")

LEAST_CONTRAST = 4.5

# The texts of a page whose contrast with what is behind them is too small, each with its contrast.
CONTRASTS = """
(() => {
  const parts = colour => colour.match(/[0-9.]+/g).map(Number);
  const light = ([red, green, blue]) => [red, green, blue].map(it => it / 255)
    .map(it => it <= 0.04045 ? it / 12.92 : ((it + 0.055) / 1.055) ** 2.4)
    .reduce((sum, it, at) => sum + it * [0.2126, 0.7152, 0.0722][at], 0);
  const behind = element => {
    const box = element instanceof SVGElement && element.parentNode.querySelector(':scope > rect');
    if (box) return parts(getComputedStyle(box).fill);
    for (let at = element; at; at = at.parentElement) {
      const found = parts(getComputedStyle(at).backgroundColor);
      if (found.length === 3 || found[3] > 0) return found;
    }
    return [255, 255, 255];
  };
  const contrast = (one, other) => (Math.max(one, other) + 0.05) / (Math.min(one, other) + 0.05);
  const found = [];
  let seen = 0;
  for (const element of document.body.querySelectorAll('*')) {
    const text = [...element.childNodes].filter(it => it.nodeType === 3).map(it => it.data).join('').trim();
    if (!text || ['title', 'desc', 'style'].includes(element.tagName.toLowerCase())) continue;
    const style = getComputedStyle(element);
    const own = parts(element instanceof SVGElement ? style.fill : style.color);
    const ratio = contrast(light(own), light(behind(element)));
    seen += 1;
    if (ratio < LEAST) found.push(text.slice(0, 40) + ': ' + ratio.toFixed(2));
  }
  return seen > 20 ? found : ['only ' + seen + ' texts were seen'];
})()
""".replace("LEAST", str(LEAST_CONTRAST))

# What an assistive program would stumble over.
FAULTS = """
(() => {
  const found = [];
  const levels = [...document.querySelectorAll('h1, h2, h3, h4, h5, h6')].map(it => Number(it.tagName[1]));
  if (levels.filter(it => it === 1).length !== 1 || levels[0] !== 1) found.push('not one h1 at the beginning');
  levels.forEach((level, at) => { if (at && level > levels[at - 1] + 1) found.push('h' + level + ' behind h' + levels[at - 1]); });
  for (const it of document.querySelectorAll('svg')) {
    const name = it.getAttribute('aria-label') || (it.querySelector('title') || {}).textContent;
    if (it.getAttribute('role') !== 'img' || !name) found.push('a picture without a name');
  }
  for (const it of document.querySelectorAll('img:not([alt])')) found.push('an image without a text: ' + it.src);
  for (const it of document.querySelectorAll('table')) if (!it.querySelector('th[scope]')) found.push('a table without heads');
  for (const it of document.querySelectorAll('a[href^="#"]')) if (!document.querySelector(it.hash)) found.push('no place ' + it.hash);
  const ids = [...document.querySelectorAll('[id]')].map(it => it.id);
  if (new Set(ids).size !== ids.length) found.push('an id twice');
  if (!document.documentElement.lang || !document.title) found.push('no language or no title');
  return found;
})()
"""

# Elements that reach over the right edge of the page, but for those in what scrolls by itself.
OUTSIDE = """
[...document.body.querySelectorAll('*')].filter(it => !it.closest('pre') && it.getBoundingClientRect().right > innerWidth + 1)
  .map(it => it.tagName + ' ' + (it.textContent || '').slice(0, 40))
"""


@pytest.fixture(scope="module")
def browser() -> Iterator[Browser]:
    with tempfile.TemporaryDirectory(prefix="report-browser-", ignore_cleanup_errors=True) as room, browsing(Path(room)) as found:
        yield found


def refused(home: Home) -> Path:
    either = plan_of(requires=["node"]) + '[[or]]\n[[or.requires]]\nname = "deno"\n'
    replies = {"sample/a@1.0.0": (100, ""), "sample/b@1.0.0": (0, either), "sample/c@1.0.0": (9, ""), "sample/d@1.0.0": (100, "")}
    return a_refused_detection(home, [["sample/a"], ["sample/a", "sample/d?"], ["sample/b", "sample/d?"], ["sample/c"]], replies)


BUILDS: list[Callable[[Home], Path]] = [a_build, a_failed_build, refused]


def written(build: Callable[[Home], Path], room: Path) -> Path:
    home = home_in(room)
    page = room / "why.html"
    page.write_text(page_of(build(home), home), encoding="utf-8")
    return page


@pytest.mark.parametrize("build", BUILDS)
@pytest.mark.parametrize("width", [400, 1400])
@pytest.mark.parametrize("is_dark", [False, True])
def test_a_page_can_be_read(browser: Browser, tmp_path: Path, build: Callable[[Home], Path], width: int, is_dark: bool) -> None:
    browser.errors.clear()
    browser.open(written(build, tmp_path), width=width, is_dark=is_dark)
    for details in ("", "document.querySelectorAll('details').forEach(it => it.open = true)"):
        browser.value(details)
        assert browser.value(CONTRASTS) == []
        assert browser.value(FAULTS) == []
        assert browser.value(OUTSIDE) == []
        assert browser.value("document.documentElement.scrollWidth") == width
    assert "passed over" in browser.value("document.body.innerText")
    assert browser.errors == []


def test_what_cannot_be_read_is_found(browser: Browser, tmp_path: Path) -> None:
    page = written(a_build, tmp_path)
    spoilt = "<style>.reason { color: #999; width: 2000px; }</style><h5>deep</h5><svg></svg><a href='#nowhere'>..</a></body>"
    page.write_text(page.read_text().replace("</body>", spoilt))
    browser.open(page, width=400)
    assert len(browser.value(CONTRASTS)) == 4
    assert browser.value(FAULTS) == ["h5 behind h3", "a picture without a name", "no place #nowhere"]
    assert browser.value(OUTSIDE)


def test_the_colours_of_a_page_are_those_that_are_preferred(browser: Browser, tmp_path: Path) -> None:
    page, found = written(a_build, tmp_path), set()
    for is_dark in (False, True):
        browser.open(page, width=1400, is_dark=is_dark)
        found.add(browser.value("getComputedStyle(document.body).backgroundColor"))
    assert found == {"rgb(246, 247, 249)", "rgb(15, 19, 24)"}


def test_a_script_in_what_a_buildpack_printed_is_a_text(browser: Browser, tmp_path: Path) -> None:
    browser.errors.clear()
    browser.open(written(a_build, tmp_path), width=1400)
    assert browser.value("document.querySelector('script')") is None
    assert browser.value("document.body.innerText").count(HOSTILE) == 2
    assert browser.errors == []


def test_a_script_would_be_refused(browser: Browser, tmp_path: Path) -> None:
    """Even if a text were not escaped, the page lets no script run."""
    page = written(a_build, tmp_path)
    page.write_text(page.read_text().replace("</body>", "<script>document.title = 'run'</script></body>"))
    browser.open(page, width=1400)
    assert browser.value("document.title") == "shop: why the build came out as it did"


def test_a_page_is_printed(browser: Browser, tmp_path: Path) -> None:
    browser.open(written(a_build, tmp_path), width=1400)
    assert browser.printed().startswith(b"%PDF-")
