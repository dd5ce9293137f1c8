"""Links that lead nowhere, in pages and in what else names a page."""

from __future__ import annotations

import re
from pathlib import Path

from page import Page, read

# What names a page by its folder and file, perhaps with a heading, before it or behind.
NAMED = re.compile(r'(?:"(?P<before>[^"\n]+)" in `?)?docs/(?P<name>[A-Z-]+\.md)`?(?:, "(?P<behind>[^"\n]+)")?')
SUFFIXES = {".rt", ".antt", ".edit", ".nova", ".py", ".md", ".sh", ".c", ".h", ".txt", ""}
PASSED_OVER = {"out", "__pycache__", "data", "tests"}


def pages_of(top: Path) -> list[Page]:
    """The pages of the repository."""
    return [read(path) for path in [top / "README.md", *sorted(top.glob("docs/*.md")), *sorted(top.glob("tools/*/README.md"))]]


def broken(page: Page, pages: dict[Path, Page]) -> list[str]:
    """The links of a page that lead to no file, or to no heading of a page."""
    faults = []
    for link in page.links:
        name, _, anchor = link.partition("#")
        path = (page.path.parent / name).resolve() if name else page.path.resolve()
        if not path.exists():
            faults.append(f"{page.path}: no file for the link {link}")
        elif anchor and (path not in pages or anchor not in pages[path].anchors):
            faults.append(f"{page.path}: no heading for the link {link}")
    return faults


def texts(top: Path) -> list[Path]:
    """The files that may name a page."""
    files = [top / ".ci/run", top / "nova", top / "README.md", top / "crates.txt"]
    for folder in ("docs", "tools", "examples", "crates"):
        files += (path for path in sorted((top / folder).rglob("*")) if path.suffix in SUFFIXES and path.is_file())
    return [path for path in files if not PASSED_OVER & set(path.relative_to(top).parts)]


def misnamed(path: Path, top: Path, pages: dict[Path, Page]) -> list[str]:
    """The pages, and headings of pages, that a text names and that aren't there."""
    faults = []
    for named in NAMED.finditer(path.read_text("utf-8", "replace")):
        page = pages.get((top / "docs" / named["name"]).resolve())
        heading = named["before"] or named["behind"]
        if page is None:
            faults.append(f"{path}: no page {named['name']}")
        elif heading is not None and heading.rstrip(",.") not in page.headings:
            faults.append(f'{path}: no heading "{heading}" in {named["name"]}')
    return faults


def faults_of(top: Path) -> tuple[int, list[str]]:
    """How many links and names were looked at, and what is wrong with them."""
    pages = {page.path.resolve(): page for page in pages_of(top)}
    faults = [fault for page in pages.values() for fault in broken(page, pages)]
    files = [path for path in texts(top) if "docs/" in path.read_text("utf-8", "replace")]
    faults += (fault for path in files for fault in misnamed(path, top, pages))
    return sum(len(page.links) for page in pages.values()) + len(files), faults
