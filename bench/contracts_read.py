"""Reads contracts and definitions: the public calls of each crate with their clauses, and what a clause rests on.
Used by `promises`."""
import os
import re

TOP = os.path.dirname(os.path.dirname(os.path.realpath(__file__)))
CRATES = f"{TOP}/crates"
OPENS, CLOSES = "([{<", ")]}>"
IMPORT = re.compile(r"(?:pub )?(?:ghost )?use Rattle\.(\w+)\.specs\.([\w.]+?)(?:\.\{([^}]*)\}| as (\w+))?;?\s*$", re.M)
DEFINED = re.compile(r"^(?:abbrev |unfoldable |pub |record |data )*(\w+)\s*(?:\{[^}]*\}\s*|\([^)]*\)\s*)*:(?!:)", re.M)
OWNER = re.compile(r"^(?:pub )?(?:impl(?:<[^{]*?>)?\s+(?:([\w:]+)(?:<[^{]*?>)?\s+for\s+)?(\w+)|trait\s+(\w+))[^{;]*\{",
                   re.M)
CALL = re.compile(r"^([ ]*)(pub )?(?:const )?fn (\w+)", re.M)
ENUM = re.compile(r"^pub enum (\w+)[^{]*\{(.*?)^\}", re.M | re.S)


def read(path):
    with open(path, encoding="utf-8") as file:
        return file.read()


def closed(text, at):
    """The place behind the brackets that open at `at`, of the kind that opens there."""
    opens, depth = text[at], 0
    closes = CLOSES[OPENS.index(opens)]
    for place in range(at, len(text)):
        depth += (text[place] == opens) - (text[place] == closes)
        if depth == 0:
            return place + 1
    return len(text)


class Clause:
    def __init__(self, kind, name, text):
        self.kind, self.name, self.text = kind, name, text


class Call:
    """A call: its owner and name, its signature, the comment above, and its clauses."""

    def __init__(self, file, owner, name, signature, clauses, is_public):
        signature = re.sub(r"//[^\n]*", "", signature)
        self.file, self.owner, self.name, self.signature = file, owner, name, " ".join(signature.split())
        self.clauses, self.is_public = clauses, is_public
        self.result = self.signature.rpartition("->")[2].strip() if "->" in self.signature else "()"

    def ensures(self):
        return [it for it in self.clauses if it.kind == "ensures"]

    def error(self):
        """The type of the refusals: that of a Result, or Option for one that may be none."""
        found = re.match(r"(?:io::)?Result<(.*)>$", self.result)
        if found:
            return found[1].rpartition(",")[2].strip()
        return "Option" if self.result.startswith("Option<") else None


class File:
    """A file of code: its imports of definitions and its calls."""

    def __init__(self, crate, path):
        self.crate, self.path, self.text = crate, path, read(path)
        self.names = imports(self.text)
        self.enums = {name: variants(body) for name, body in ENUM.findall(self.text)}
        self.calls = list(self.read_calls())

    def owner_at(self, place):
        owner = None
        for it in OWNER.finditer(self.text):
            if it.start() < place < closed(self.text, it.end() - 1):
                owner = it[2] or it[3]
                is_trait = bool(it[1] or it[3])
                return owner, is_trait
        return owner, False

    def read_calls(self):
        for it in CALL.finditer(self.text):
            if it[1] not in ("", "    "):
                continue
            end = clauses_begin(self.text, it.end())
            clauses, _ = read_clauses(self.text, end)
            owner, of_trait = self.owner_at(it.start())
            signature = self.text[it.start():end]
            yield Call(self, owner, it[3], signature, clauses, bool(it[2]) or of_trait)


def clauses_begin(text, at):
    """The place behind a signature: where its first clause, its body or its end comes."""
    depth = 0
    while at < len(text):
        if text[at] in "([":
            depth += 1
        elif text[at] in ")]":
            depth -= 1
        elif depth == 0 and (text[at] in "{;" or re.match(r"\s(requires|ensures)\b", text[at:at + 12])):
            return at
        at += 1
    return at


def read_clauses(text, at):
    found = []
    while True:
        it = re.compile(r"\s*(?://[^\n]*\n\s*)*(requires|ensures)\s*(\*?)\s*(\w*)\s*\{").match(text, at)
        if not it:
            return found, at
        end = closed(text, it.end() - 1)
        found.append(Clause(it[1], it[3], " ".join(text[it.end():end - 1].split())))
        at = end


def variants(body):
    """The names of an enum's variants: the words outside of brackets."""
    body = re.sub(r"//[^\n]*|#\[[^\n]*", "", body)
    bare = body
    while bare != (bare := re.sub(r"\([^()]*\)|\{[^{}]*\}", "", bare)):
        pass
    return re.findall(r"\w+", bare)


def imports(text):
    """By name, where a definition comes from: (crate, module, name), and of an alias (crate, module, None)."""
    found = {}
    for crate, module, listed, alias in IMPORT.findall(text):
        if alias:
            found[alias] = crate, module, None
        for one in (listed or "").split(","):
            name, _, other = one.strip().partition(" as ")
            if name and re.fullmatch(r"\w+", name):
                found[other or name] = crate, module, name
        if not listed and not alias and "." in module:
            found[module.rpartition(".")[2]] = crate, *module.rpartition(".")[::2]
    return found


class Specs:
    """The definitions of all crates."""

    def __init__(self):
        self.files = {}

    def file(self, crate, module):
        key = crate, module
        if key not in self.files:
            path = f"{CRATES}/{crate}/specs/{module.replace('.', '/')}.antt"
            text = re.sub(r"--[^\n]*", "", read(path)) if os.path.isfile(path) else ""
            marks = list(DEFINED.finditer(text))
            blocks = {}
            for at, it in enumerate(marks):
                end = marks[at + 1].start() if at + 1 < len(marks) else len(text)
                blocks[it[1]] = blocks.get(it[1], "") + text[it.start():end]
            self.files[key] = imports(text), blocks
        return self.files[key]

    def cone(self, text, names, module=None, most=5000):
        """The definitions that a text names, and those that they name, nearest first: (crate, module, name, text)."""
        seen, row = set(), [(text, names, module)]
        while row and len(seen) < most:
            text, names, module = row.pop(0)
            for word in dict.fromkeys(re.findall(r"[A-Za-z_]\w*(?:\.[A-Za-z_]\w*)?", text)):
                place = self.place(word, names, module)
                if not place or place in seen:
                    continue
                crate, part, name = place
                seen.add(place)
                below, blocks = self.file(crate, part)
                if name in blocks:
                    yield crate, part, name, blocks[name]
                    row.append((blocks[name], below, (crate, part)))

    def place(self, word, names, module):
        first, _, rest = word.partition(".")
        if first in names:
            crate, part, name = names[first]
            if name is None:
                return (crate, part, rest) if rest else None
            return None if part.startswith("declared") else (crate, part, name)
        if module and first in self.file(*module)[1]:
            return *module, first
        return None


class Surface:
    """The public calls of the crates, by their names."""

    def __init__(self):
        self.crates = {}

    def files(self, crate):
        if crate not in self.crates:
            walked = os.walk(f"{CRATES}/{crate}/src")
            paths = [os.path.join(at, one) for at, _, listed in walked for one in listed]
            self.crates[crate] = [File(crate, path) for path in sorted(paths) if path.endswith(".rt")]
        return self.crates[crate]

    def exported(self, crate):
        """The names that the crate gives out: by name the crate in which each is declared."""
        text, found = read(f"{CRATES}/{crate}/src/lib.rt"), {}
        for path, listed in re.findall(r"^pub use ([\w:]+?)(?:::\{([^}]*)\})?;", text, re.M):
            names = [one.strip() for one in listed.split(",")] if listed else [path.rpartition("::")[2]]
            first = path.split("::")[0]
            home = first if os.path.isdir(f"{CRATES}/{first}") and not os.path.exists(
                f"{CRATES}/{crate}/src/{first}.rt") else crate
            found.update({one: home for one in names if one})
        return found

    def home(self, crate, name, depth=0):
        """The crate in which a name that this crate gives out is declared, or None."""
        home = self.exported(crate).get(name)
        return home if home in (None, crate) or depth > 4 else self.home(home, name, depth + 1) or home

    def call(self, crate, owner, name):
        """The calls of this name: several where traits of one name have them."""
        home = self.home(crate, owner or name)
        if home is None:
            return []
        return [it for file in self.files(home) for it in file.calls
                if it.name == name and it.owner == owner and it.is_public]

    def public(self, crate):
        """All public calls of what the crate gives out."""
        for file in self.files(crate):
            names = self.exported(crate)
            for it in file.calls:
                if it.is_public and (it.owner or it.name) in names:
                    yield it

    def variants(self, name, crates):
        for crate in crates:
            for file in self.files(crate):
                if name in file.enums:
                    return file.enums[name]
        return None
