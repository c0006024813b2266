#!/usr/bin/env python3
"""What the pages say that isn't so: one line each, and status 1 if any.

Of each page: a link leads to a file or a heading; a path in backticks is one of the repository; a name in backticks
stands somewhere in the sources, as a word or as a file; a clause that is cited, as `call`: `clause`, is one of that
call; an edit that a README names as refused is there; text has at most 130 columns, a row of a table 300. The first
page has at most 90 lines. All pages together have at most 20 sentences of more than 30 words, names in backticks counted
as one. In docs/map.md each call stands in the crate beside it, and the call in the next column makes it. The pictures of
samples/ are what chart.py draws, and the programs say the version of CHANGELOG.md. The last line is 'N passed, M
failed', which counts what was looked at.
"""
import os
import re
import sys

sys.dont_write_bytecode = True
HERE = os.path.dirname(os.path.realpath(__file__))
TOP = os.path.dirname(HERE)
sys.path[:0] = [HERE, f"{HERE}/tools"]
from chart import drawn_of
from contracts import Sources

TEXT_WIDTH, ROW_WIDTH = 130, 300
FIRST_LINES, SENTENCE_WORDS, LONG_SENTENCES = 90, 30, 20
# Pages whose names are of another time, or of no file: what has changed, forms of proofs, what was measured.
NO_NAMES = ("CHANGELOG.md", "docs/proof-notes.md", "bench/README.md")
# Names that stand in no source, each with its reason.
ALLOWED = f"{HERE}/documents.txt"
FENCE = re.compile(r"^```[\s\S]*?^```$|^\n(?: {4}[^\n]*\n)+", re.M)
LINK = re.compile(r"\[[^\]]*\]\(([^)\s]+)\)")
SPAN = re.compile(r"`([^`]+)`")
PATH = re.compile(r"[.a-z][\w.-]*(?:/[\w.-]+)+|[\w-]+\.(?:antt|rt|py|sh|md|edi|script|expected|edit|rattle|txt|misuse|svg)")
NAME = re.compile(r"(?:[A-Za-z_]\w*)(?:(?:::|\.)[A-Za-z_]\w*)*")
REFUSED = re.compile(r"\*Refused:\*(.*)")
CITED = re.compile(r"((?:`[\w:]+`(?:, | and )?)+): ((?:`\w+`(?:, | and )?)+)")


def listed():
    """The files of the repository, as paths from its top."""
    found = []
    for folder, names, files in os.walk(TOP):
        names[:] = [it for it in names if it not in (".git", "out", "__pycache__")]
        found += [os.path.relpath(f"{folder}/{it}", TOP) for it in files if it != ".git"]
    return sorted(found)


def read(path):
    with open(f"{TOP}/{path}", encoding="utf-8", errors="replace") as file:
        return file.read()


def plain(text):
    """A page without its blocks of code, line for line."""
    return FENCE.sub(lambda it: "\n" * it[0].count("\n"), text)


def paragraphs(text):
    """The number of the first line of each paragraph, item or row, and its text in one line."""
    number, held = 0, []
    for at, line in enumerate([*plain(text).split("\n"), ""], 1):
        if held and (not line.strip() or re.match(r"\s*(?:[|#>]|- |\d+\. )", line)):
            yield number, " ".join(held)
            held = []
        if line.strip():
            number = number if held else at
            held.append(line.strip())


def headings(text):
    """The anchors of a page's headings."""
    heads = re.findall(r"^#+ (.*)$", plain(text), re.M)
    return {re.sub(r"[^\w\- ]", "", it.replace("`", "").lower()).replace(" ", "-") for it in heads}


class Page:
    """A page, and what is wrong with it."""

    def __init__(self, path, files):
        self.path, self.text, self.files = path, read(path), files
        self.looked, self.faults = 0, []

    def want(self, is_so, line, fault):
        self.looked += 1
        if not is_so:
            self.faults.append(f"{self.path}:{line}: {fault}")

    def widths(self):
        for number, line in enumerate(self.text.split("\n"), 1):
            most = ROW_WIDTH if line.startswith("|") else TEXT_WIDTH
            self.want(len(line) <= most, number, f"{len(line)} columns, and {most} is the most")

    def links(self):
        for number, text in paragraphs(self.text):
            for link in LINK.findall(text):
                if re.match(r"\w+:", link):
                    continue
                path, _, anchor = link.partition("#")
                to = os.path.normpath(os.path.join(os.path.dirname(self.path), path)) if path else self.path
                self.want(os.path.exists(f"{TOP}/{to}"), number, f"no file {to}")
                if anchor and os.path.isfile(f"{TOP}/{to}"):
                    self.want(anchor in headings(read(to)), number, f"no heading {anchor} in {to}")

    def names(self, words):
        """Paths and names in backticks."""
        for number, text in paragraphs(self.text):
            for span in SPAN.findall(text):
                for path in PATH.findall(span):
                    self.want(self.is_path(path), number, f"no file {path}")
                if NAME.fullmatch(span) and not PATH.fullmatch(span):
                    lost = [it for it in re.split(r"::|\.", span) if it not in words]
                    self.want(not lost, number, f"no {', '.join(lost)} in the sources")

    def edits(self):
        """That each edit which is named as refused is there."""
        there = {os.path.basename(it)[:-5] for it in self.files if it.endswith(".edit")}
        for number, text in paragraphs(self.text):
            for names in REFUSED.findall(text):
                for name in re.findall(r"`(\w+_\w+)`", re.sub(r"\([^)]*\)|(?:of|in) `?x12_\w+`?|x12_\w+", "", names)):
                    self.want(name in there, number, f"no edit {name}")

    def is_path(self, path):
        """Whether a path names a file or a folder, from the top, from the page, or by its end; NAME stands for any."""
        path = re.sub(r"^(?:\.\.?/)+", "", path).strip("/")
        form = re.sub(r"NAME|SUBJECT", "[^/]+", re.escape(path).replace(r"\*", "[^/]*"))
        return any(re.search(rf"(?:^|/){form}(?:$|/)", it) for it in self.files)

    def clauses(self, sources):
        for number, text in paragraphs(self.text):
            for calls, clauses in CITED.findall(text):
                calls = [sources.named(it) for it in SPAN.findall(calls)]
                if not calls or not all(calls):
                    continue
                there = {clause for call in calls for it in call for clause in it.clauses}
                for clause in SPAN.findall(clauses):
                    self.want(clause in there, number, f"no clause {clause} of {', '.join(sorted({it.name for call in calls for it in call}))}")


def first_page(page, _):
    """How long it is."""
    page.want(page.text.count("\n") <= FIRST_LINES, 1, f"more than {FIRST_LINES} lines")


def long_sentences(page):
    """The line and the words of each sentence that is too long; a link counts as its text, a name in backticks as a word."""
    for number, text in paragraphs(page.text):
        text = SPAN.sub("name", re.sub(r"\[([^\]]*)\]\([^)\s]+\)", r"\1", text))
        for cell in text.strip("|").split(" | ") if text.startswith("|") else [text]:
            for sentence in re.split(r"(?<=[.?!:])\**\s", cell):
                if len(sentence.split()) > SENTENCE_WORDS:
                    yield number, sentence


def floors(page):
    """That each crate stands in the drawing, on a floor above those of the crates that it stands on."""
    drawing = re.search(r"^```text\n(.*?)^```", page.text, re.M | re.S)[1].split("\n")
    floor = {name: at for at, line in enumerate(drawing) for name in re.findall(r"\b[a-z]\w+", line.replace("over sql_rows", ""))}
    for line in read("crates.txt").split("\n"):
        name, _, below = line.partition(": ")
        if re.fullmatch(r"\w+", name) and name not in ("proved_callers", "sql_rows"):
            page.want(name in floor, 1, f"no {name} in the drawing")
            for it in below.split():
                page.want(floor.get(it, len(drawing)) > floor.get(name, 0), 1, f"{it} stands above {name} in the drawing, or beside it")


def walks(page, sources):
    """That each call of a way stands in its crate, and is reached from the call that the page names for it."""
    floors(page)
    for number, text in paragraphs(page.text):
        cells = [it.strip() for it in text.strip("|").split(" | ")]
        if not text.startswith("|") or len(cells) != 4 or "`" not in cells[1]:
            continue
        callers = found_in(page, number, cells[2], sources)
        for name, it in found_in(page, number, cells[1], sources):
            is_reached = any(sources.is_reached(name, it, caller) for _, caller in callers)
            page.want(is_reached or not callers, number, f"{name} isn't called from {cells[2]}")


def found_in(page, number, cell, sources):
    """The functions that a cell names, `call` behind its crate, with their names there."""
    found = []
    for crate, calls in re.findall(r"(\w+) ((?:`[\w:]+`(?:, )?)+)", cell):
        for name in SPAN.findall(calls):
            there = sources.named(name, crate)
            page.want(there, number, f"no {name} in {crate}")
            found += [(name, it) for it in there]
    return found


def pictures(page, _):
    """That the picture of each story is the one that is drawn of it now, and stands on the page."""
    for path in page.files:
        if re.fullmatch(r"samples/\w+\.script", path):
            picture = path.replace(".script", ".svg")
            is_so = picture in page.files and read(picture) == drawn_of(f"{TOP}/{path}")
            page.want(is_so, 1, f"{picture} isn't what checks/tools/chart.py draws")
            page.want(f"({os.path.basename(picture)})" in page.text, 1, f"{picture} isn't shown")


def versions(page, _):
    """That the programs have the version of the newest dated section."""
    newest = re.search(r"^## (\d+\.\d+\.\d+), \d{4}-\d\d-\d\d$", page.text, re.M)
    page.want(newest, 1, "no section of a version and a day, as '## 0.1.0, 2026-11-25'")
    said = re.findall(r"VERSION: &str = \"(.*?)\";", read("crates/x12_answering/src/lib.rt"))
    page.want(newest and said == [newest[1]], 1, f"the programs say version {', '.join(said)}")


def words_of(files):
    """All words of the sources and names of files, and the names that may stand without."""
    others = (".md", ".edi", "/verdicts.txt", "/documents.txt")
    texts = [read(it) for it in files if not it.endswith(others) and not it.startswith("bench/")]
    words = set(re.findall(r"[A-Za-z_]\w*", "\n".join(texts)))
    with open(ALLOWED, encoding="utf-8") as file:
        words.update(re.findall(r"^(\w+): .", file.read(), re.M))
    return words | {part for it in files for part in re.split(r"[/.]", it)}


OF_PAGE = {
    "README.md": first_page,
    "CHANGELOG.md": versions,
    "docs/map.md": walks,
    "samples/README.md": pictures,
}


def main():
    files = listed()
    sources, words = Sources(), words_of(files)
    pages = [Page(it, files) for it in files if it.endswith(".md")]
    for page in pages:
        page.widths()
        page.links()
        page.clauses(sources)
        page.edits()
        if page.path not in NO_NAMES:
            page.names(words)
        OF_PAGE.get(page.path, lambda page, sources: None)(page, sources)
    faults = [fault for page in pages for fault in page.faults]
    long = [f"{page.path}:{number}: {sentence[:100]} .." for page in pages for number, sentence in long_sentences(page)]
    if len(long) > LONG_SENTENCES:
        faults.append(f"{len(long)} sentences have more than {SENTENCE_WORDS} words, and {LONG_SENTENCES} may:")
        faults += long
    print("".join(f"{fault}\n" for fault in faults), end="")
    print(f"{sum(page.looked for page in pages) - len(faults)} passed, {len(faults)} failed")
    return 1 if faults else 0


if __name__ == "__main__":
    sys.exit(main())
