"""What stands in the sources: functions with their clauses and bodies, and definitions with the words that clauses cite."""
import os
import re
from collections import namedtuple

from source_text import files_of, functions_in, words_in

GHOST_USE = re.compile(r"ghost use Rattle\.\w+\.specs\.[\w.]+\.\{([^}]*)\}")
CALL = re.compile(r"(\.|\b\w+::)?\b([a-z_]\w*)(?:::<[^()]*>)?\(")
WORD = re.compile(r"[A-Za-z_][\w']*")
# A word of a clause that is no field, neither one that is asked for nor one that is given.
CITED = re.compile(r"(?<![\w.'])[A-Za-z_][\w']*(?! =)(?![\w'])")
# A function with its crate, the names of its clauses and those of its trait's, and the words in them.
Found = namedtuple("Found", "crate name owner is_public clauses words code")


def may_be_called(by, here, owner):
    """Whether a call, of a method as `.f(`, of a type as `T::f(`, or plain, may mean a function with this owner."""
    of = by.removesuffix("::")
    return owner is not None if by == "." else owner == (here if of == "Self" else of) if of[:1].isupper() else owner is None


class Sources:
    """All functions and definitions of the repository."""

    def __init__(self):
        self.imports, found = {}, []
        for path, text in files_of("src", ".rt"):
            crate = path.split(os.sep)[0]
            uses = {name.strip() for names in GHOST_USE.findall(text) for name in names.split(",")}
            self.imports.setdefault(crate, set()).update(WORD.findall(" ".join(re.findall(r"^use ([^;]*);", text, re.M))))
            found += [(crate, it, {word for clause in it.clauses for word in CITED.findall(clause[2])} & uses) for it in functions_in(text)]
        named = {(it.owner, it.name): {name for _, name, _ in it.clauses if name} for _, it, _ in found}
        self.functions = [Found(crate, it.name, it.owner, it.is_public, {name for _, name, _ in it.clauses if name}
                                | named.get((it.trait, it.name), set()), words, it.code) for crate, it, words in found]
        self.by_name = {}
        for it in self.functions:
            self.by_name.setdefault((it.crate, it.name), []).append(it)
        self.places = {}
        for path, text in files_of("specs", ".antt"):
            if path.split(os.sep)[0] != "proved_callers":
                self.places.update({name: path.replace(os.sep, "/") for _, name in words_in(text)})

    def named(self, name, crate=None):
        """The functions that a page means by `f`, `T::f` or `crate::f`."""
        owner, _, last = name.rpartition("::")
        owner = owner.split("::")[-1]
        found = [it for it in self.functions if it.name == last and crate in (None, it.crate)]
        return [it for it in found if owner in ("", it.owner, it.crate)] or ([] if owner[:1].isupper() else found)

    def is_reached(self, name, it, caller):
        """Whether a call, with this name on a page, is made from a function, and its type is known there."""
        owner = name.rpartition("::")[0]
        is_known = not owner[:1].isupper() or it.crate == caller.crate or owner in self.imports[caller.crate]
        return is_known and it.name in self.reached(caller)

    def reached(self, function):
        """The names that a function's body calls, itself or through others of its crate, as far as names tell."""
        found, left = set(), [function]
        while left:
            it = left.pop()
            called = {(by or "", name) for by, name in CALL.findall(it.code)} - found
            found |= called
            for by, name in called:
                there = self.by_name.get((it.crate, name), [])
                left += [other for other in there if may_be_called(by, it.owner, other.owner)]
        return {name for _, name in found}

    def cited(self):
        """The definitions that public contracts of libraries cite, each with a function that does."""
        found = {}
        for it in self.functions:
            if it.is_public and it.crate != "proved_callers":
                found.update({word: it for word in it.words if word in self.places})
        return found
