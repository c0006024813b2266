"""Manual pages and completion for bash, made of what a program says with --help, which is made of its rows.

`pages_of(program)` runs it; `roff(page)` is the manual page of a program or a command, `completion(pages)` the completion.
"""
import re
import subprocess
from dataclasses import dataclass, field

ENTRY = re.compile(r" {2,6}(\S.*?)(?: {2,}(\S.*))?$")
CHOICES = re.compile(r" \[possible values: (.*?)\]$")
HEAD = re.compile(r"[A-Z][\w ]*:$")


@dataclass
class Page:
    """What a program says of itself, or of a command."""

    program: str
    command: str
    version: str
    about: str
    usage: str
    sections: dict = field(default_factory=dict)  # "Options" and so on: pairs of a word and what it says
    texts: list = field(default_factory=list)  # behind them: pairs of a heading, or none, and lines

    @property
    def name(self):
        return f"{self.program}-{self.command}" if self.command else self.program

    def options(self):
        """The names of the options, with what values each may have: None where it has no value."""
        found = {}
        for word, says in self.sections.get("Options", []):
            values = None
            if "<" in word:
                choices = CHOICES.search(says)
                values = choices[1].split(", ") if choices else []
            for name in re.findall(r"(?<!\S)--?[\w-]+", word):
                found[name] = values
        return found

    def commands(self):
        """The commands of a program, in its order."""
        return [word for title, words in self.sections.items() if title not in ("Arguments", "Options") for word, _ in words]


def said(path, program, *words):
    """What a program says by this name."""
    ran = subprocess.run([program, *words], executable=path, stdin=subprocess.DEVNULL, capture_output=True, text=True, check=True)
    return ran.stdout


def read(program, command, version, text):
    """The page that a help says."""
    head, usage, rest = re.fullmatch(r"(.*?)\n\nUsage: (.*?)\n(.*)", text, re.S).groups()
    page, lines = Page(program, command, version, head.strip(), usage.strip()), rest.split("\n")
    behind = 0
    while behind < len(lines):
        title, words = lines[behind].removesuffix(":"), []
        if HEAD.match(lines[behind]) and "Options" not in page.sections:
            behind += 1
            while behind < len(lines) and lines[behind].strip():
                words.append(tuple(it or "" for it in ENTRY.match(lines[behind]).groups()))
                behind += 1
            page.sections[title] = words
        elif lines[behind].strip():
            break
        else:
            behind += 1
    for line in lines[behind:]:
        if HEAD.match(line):
            page.texts.append((line.removesuffix(":"), []))
        elif not page.texts:
            page.texts.append(("", [line]))
        else:
            page.texts[-1][1].append(line)
    return page


def pages_of(path, program):
    """The pages of a program and of its commands: the program's first."""
    version = said(path, program, "--version").split()[1]
    top = read(program, "", version, said(path, program, "--help"))
    return [top, *[read(program, it, version, said(path, program, it, "--help")) for it in top.commands()]]


def plain(text):
    """Text in roff."""
    text = text.replace("\\", "\\e").replace("-", "\\-").replace("~", "\\(ti").replace("^", "\\(ha").replace("`", "\\(ga")
    return f"\\&{text}" if text.startswith((".", "'")) else text


def tagged(words):
    """A list of words, each with what it says."""
    return "".join(f".TP\n.B {plain(word)}\n{plain(says)}\n" for word, says in words)


def as_text(lines):
    """Lines as they stand."""
    while lines and not lines[-1].strip():
        lines = lines[:-1]
    return ".nf\n" + "".join(f"{plain(it)}\n" if it else ".sp\n" for it in lines) + ".fi\n"


def text_section(heading, lines):
    """What stands behind the options: statuses as a list, and else as it stands."""
    if heading == "Exit status":
        whole = re.sub(r"\n {4,}", " ", "\n".join(lines))
        words = re.findall(r"^  (\d)  (.*)$", whole, re.M)
        return f".SH EXIT STATUS\n{tagged(words)}"
    return f".SH {heading.upper() or 'NOTES'}\n{as_text(lines)}"


def roff(page, others=()):
    """The manual page; others are the names of those that it points to."""
    about = page.about.rstrip(".")
    title = f'.TH {page.name.upper()} 1 "" "{page.program} {page.version}" "User Commands"\n'
    text = title + f".SH NAME\n{plain(page.name)} \\- {plain(about[0].lower() + about[1:])}\n"
    text += f".SH SYNOPSIS\n.B {plain(page.usage)}\n.SH DESCRIPTION\n{plain(page.about)}\n"
    if not page.command:
        text += ".SH COMMANDS\n"
    for heading, words in page.sections.items():
        is_group = heading not in ("Arguments", "Options")
        text += f".SS {heading}\n{tagged(words)}" if is_group else f".SH {heading.upper()}\n{tagged(words)}"
    for heading, lines in page.texts:
        text += text_section(heading, lines)
    if others:
        text += ".SH SEE ALSO\n" + ",\n".join(f".BR {plain(it)} (1)" for it in others).replace(",\n", " ,\n") + "\n"
    return text


def manuals(pages):
    """Each manual page, by its file's name."""
    top = pages[0].name
    others = [it.name for it in pages[1:]]
    return {f"{it.name}.1": roff(it, others if it is pages[0] else [top]) for it in pages}


COMPLETION = """# Completion of {program} for bash, made of what it says with --help.
_{program}() {{
  local word=${{COMP_WORDS[COMP_CWORD]}} before=${{COMP_WORDS[COMP_CWORD - 1]}} options='' values=''
  if [ "$COMP_CWORD" -eq 1 ]; then
    mapfile -t COMPREPLY < <(compgen -W '{first}' -- "$word")
    return
  fi
  case ${{COMP_WORDS[1]}} in
{commands}  esac
  case "${{COMP_WORDS[1]}} $before" in
{values}  esac
  if [ -n "$values" ]; then
    mapfile -t COMPREPLY < <(compgen -W "$values" -- "$word")
  elif [[ $word == -* ]]; then
    mapfile -t COMPREPLY < <(compgen -W "$options" -- "$word")
  fi
}}
complete -o default -F _{program} {program}
"""


def completion(pages):
    """The completion for bash of a program: its commands, their options, and what values these may have."""
    top = pages[0]
    lines = {"commands": "", "values": ""}
    for page in pages[1:]:
        lines["commands"] += f"    {page.command}) options='{' '.join(page.options())}' ;;\n"
        for name, values in page.options().items():
            if values:
                lines["values"] += f"    '{page.command} {name}') values='{' '.join(values)}' ;;\n"
    lines["commands"] += f"    help) values='{' '.join(top.commands())}' ;;\n"
    lines["values"] += "    *) ;;\n"
    return COMPLETION.format(program=top.program, first=" ".join([*top.commands(), "help", *top.options()]), **lines)
