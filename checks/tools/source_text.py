"""What stands in a source, read as text: the functions of a .rt file, and the words and statements of an .antt file."""
import glob
import os
import re
from collections import namedtuple

ROOT = os.path.dirname(os.path.dirname(os.path.dirname(os.path.realpath(__file__))))
APART = re.compile(r"""//[^\n]*|b?"(?:\\.|[^"\\])*"|b?'(?:\\.|[^'\\])'""", re.S)
HEAD = re.compile(r"(pub(?:\([^)]*\))? )?(?:const )?(?:unsafe )?\bfn (\w+)")
STEP = re.compile(r"\b(requires|ensures)\*?(?:\s+(\w+))?\s*\{|[(\[{;]")
ENDS = {"(": ")", "[": "]", "{": "}", "<": ">"}
BLOCK = re.compile(r"^(pub )?(impl|trait)\b(?:<[^{]*?>)? (?:(?:[\w:]+::)?(\w+)(?:<[^{]*?>)? for )?&?(?:mut )?(\w+)", re.M)
DEFINITION = re.compile(
    r" *(?:(?:abbrev|unfoldable)(?: pub)?|pub (?:record|data)|pub(?! (?:mod|use|module|open)\b)) ([^\s:({]+)")
LEMMA = re.compile(r"( *)(?:pub )?([^\s:(){}]+) :(?= |$)")
TOKEN = re.compile(r"[^\s(){}\[\];,.]+|[(){}\[\];,.]")
BINDER = re.compile(r"[({]([^(){}:]+?) : |λ ([^.()]+?)\.|λ \(([^:()]+?) : ")

# A function: its name; the numbers of its first line, from its attributes on, of its head and of its last line; its clauses, as
# (ensures, name, text); how many parameters beside `self` and lines of a body it has; its body, line by line and without
# comments; the name that `rt check --only` knows it or its module by; the trait and the type, or the trait alone, of the block
# that it stands in; whether others may call it, and whether by a trait; what stands before its body; and its body as code.
Function = namedtuple("Function", "name first line last clauses parameters lines body path trait owner is_public of_trait head code")


def files_of(part, ending):
    """The files of a part of every crate, by their paths from crates/, and their texts."""
    for path in sorted(glob.glob(os.path.join(ROOT, "crates", "*", part, "**", "*" + ending), recursive=True)):
        with open(path, encoding="utf-8") as file:
            yield os.path.relpath(path, os.path.join(ROOT, "crates")), file.read()


def files_of_tests():
    """The files of tests/, by their paths from the top, and their texts."""
    for path in sorted(glob.glob(os.path.join(ROOT, "tests", "**", "*.rattle"), recursive=True)):
        with open(path, encoding="utf-8") as file:
            yield os.path.relpath(path, ROOT), file.read()


def plain(text):
    """The text without comments, and with literals that have no brackets and no commas; place for place."""

    def blank(found):
        return re.sub(r"[^\n]", " ", found[0]) if found[0].startswith("//") else re.sub(r"[^\n]", "_", found[0])

    return APART.sub(blank, text)


def behind(code, at, opens="([{"):
    """The place behind the bracket that closes the one at this place."""
    awaited = [ENDS[code[at]]]
    while awaited:
        at += 1
        if code[at] == awaited[-1]:
            awaited.pop()
        elif code[at] in opens:
            awaited.append(ENDS[code[at]])
    return at + 1


def parameters_in(text):
    """How many parameters stand between these parentheses, beside `self`."""
    parts, at = [""], 1
    while at < len(text) - 1:
        end = behind(text, at, "([{<") if text[at] in ENDS else at + 1
        if text[at] == ",":
            parts.append("")
        else:
            parts[-1] += text[at:end]
        at = end
    return len([it for it in parts if it.strip() and not re.search(r"\bself$", it.strip())])


def block_at(code, at):
    """The block that a place stands in: whether it is public, `impl` or `trait`, the trait that it gives, and its type."""
    block = next((it for it in reversed(list(BLOCK.finditer(code, 0, at)))), None)
    return block.groups() if block and code.rfind("\n}", block.start(), at) < 0 else (None, None, None, None)


def first_line(lines, line):
    """The number of the line that a function's attributes begin at."""
    while line > 1 and lines[line - 2].strip() and not re.search(r"^ *//|[{};]$", lines[line - 2]):
        line -= 1
    return line


def functions_in(text, module=""):
    """The functions of a source."""
    whole, lines = plain(text), text.split("\n")
    code = whole.replace("->", "  ")
    for head in HEAD.finditer(code):
        at = head.end()
        at = behind(code, at, "([{<") if code[at] == "<" else at
        end, clauses = behind(code, at), []
        parameters, step = parameters_in(code[at:end]), STEP.search(code, end)
        while step[0] not in "{;":
            end = behind(code, step.end() - 1)
            if step[1]:
                clauses.append((step[1] == "ensures", step[2], code[step.end():end]))
            step = STEP.search(code, end)
        opens, closes = step.start(), behind(code, step.start()) if step[0] == "{" else step.start()
        body = [it.strip() for it in text[opens + 1 : closes - 1].strip("\n").split("\n")]
        number = lambda place: code.count("\n", 0, place) + 1
        shown, kind, trait, owner = block_at(code, head.start())
        of_type = f"{owner}::{head[2]}" if kind == "impl" else f"{module}::{head[2]}" if module else head[2]
        yield Function(head[2], first_line(lines, number(head.start())), number(head.start()), number(closes), clauses, parameters,
                       max(code.count("\n", opens, closes) - 1, 0), [it for it in body if it and not it.startswith("//")],
                       (module or head[2]) if trait else of_type, trait, owner, head[1] == "pub " or kind == "trait" and bool(shown),
                       not head[1], whole[head.end() : opens + 1], code[opens:closes])


def depth_of(line):
    return len(line) - len(line.lstrip(" "))


def words_in(text):
    """Each definition's line, and its name; the fields of a record and the cases of a data type are none."""
    inside = None
    for number, line in enumerate(text.split("\n"), 1):
        if not line.strip() or line.lstrip().startswith("--") or inside is not None and depth_of(line) > inside:
            continue
        found = DEFINITION.match(line)
        inside = depth_of(line) if found and re.match(r" *pub (record|data)", line) else None
        if found:
            yield number, found[1]


def with_plain_variables(statement, own):
    """The statement with its variables named by their order, and the words of its own file marked."""
    names = {}
    for binder in BINDER.finditer(statement):
        for name in (binder[1] or binder[2] or binder[3]).split():
            names.setdefault(name, f"v{len(names)}")
    tokens = ((it[0], statement[it.start() - 1 : it.start()] == ".") for it in TOKEN.finditer(statement))
    return " ".join(name if is_field else names.get(name, own.get(name, name)) for name, is_field in tokens)


def statements_in(text):
    """Each lemma's line, its name, and its statement with plain variables; answers to goals are none."""
    lines, around = text.split("\n"), ""
    own = {name: f"{name}@{hash(text)}" for _, name in words_in(text)}
    for at, line in enumerate(lines):
        if line.startswith("module _ "):
            around = line[len("module _") :].rpartition(" where")[0]
        elif line.strip() and depth_of(line) == 0:
            around = ""
        found = LEMMA.match(line)
        if not found or depth_of(line) != (2 if around else 0):
            continue
        statement = [line[found.end() :]]
        for more in lines[at + 1 :]:
            if depth_of(more) <= depth_of(line) or not more.strip():
                break
            statement.append(more.split(" -- ")[0])
        joined = " ".join(statement).strip()
        if not re.search(r"\bgoal\.", joined):
            between = " " if not around or joined[:1] in ("(", "{") else " → "
            yield at + 1, found[2], with_plain_variables(around + between + joined, own)
