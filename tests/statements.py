"""Reads the statements of the crates' .antt files, for `same-statements` and `unproved-statements`.

A declaration is a signature `name : type` on the top of a file or in the body of a `module _` block. What stands in `where` blocks and
the fields of records are no declarations of their own: they can't be cited from outside.
"""
import re
from dataclasses import dataclass, field
from pathlib import Path

TOP = Path(__file__).resolve().parent.parent
USE = re.compile(r"^(?:pub )?use (?:Rattle\.)?([^\s{]+?)(?:\.\{(.*)\}| as (\S+))?$")
SECTION = re.compile(r"^( *)module _ (.*) where$")
SIGNATURE = re.compile(r"^( *)((?:abbrev |pub |record |data )*)([^\s:(){}]+)((?: [({].*?[)}])*) : (.*)$")
HEAD = re.compile(r"^( *)(?:abbrev |pub |record |data |module )*[^\s:(){}]+ (?:[({].*|: .*|:)$")
TOKEN = re.compile(r"[(){}\[\],;]|[^\s(){}\[\],;]+")
OPEN = {"(": ")", "{": "}", "[": "]"}
DATA = {"ℕ", "ℤ", "Bool", "List", "Option", "Vec", "Type", "Unit", "×", "Ordering"}


@dataclass
class Declaration:
    """A name with its signature: the telescopes of the blocks around it and its own, and its type."""

    path: Path
    line: int
    name: str
    words: frozenset[str]
    telescope: str
    type: str
    fields: list[tuple[str, str]] = field(default_factory=list)
    text: str = ""


@dataclass
class File:
    """What a file declares, and the names that it brings in: by name the place and name there."""

    path: Path
    place: str
    declarations: list[Declaration] = field(default_factory=list)
    brought: dict[str, tuple[str, str]] = field(default_factory=dict)
    modules: dict[str, str] = field(default_factory=dict)


def place_of(path: Path) -> str:
    """The crate, folders and name of a file, as a path of antt names them."""
    return ".".join(path.relative_to(TOP / "crates").with_suffix("").parts)


def outside(text: str) -> str:
    """A text without what stands in brackets."""
    while True:
        shorter = re.sub(r"\([^()]*\)|\{[^{}]*\}|\[[^\[\]]*\]", "", text)
        if shorter == text:
            return text
        text = shorter


def goes_on(head: str, line: str) -> bool:
    """Whether a line goes on with the signature that the lines before it began: it stands deeper, and no body has begun."""
    begun = HEAD.match(head)
    if not begun or re.search(r" =( |$)", outside(head)) or head.endswith(" where"):
        return False
    return len(line) - len(line.lstrip()) > len(begun[1]) and not re.match(r" *unfolding ", line)


def joined(text: str) -> list[tuple[int, str]]:
    """The lines of a text with the numbers that they have, signatures that go on in deeper lines joined; comments are left out."""
    lines: list[tuple[int, str]] = []
    for number, line in enumerate(text.splitlines(), 1):
        if not line.strip() or line.lstrip().startswith("--"):
            continue
        if lines and goes_on(lines[-1][1], line):
            lines[-1] = (lines[-1][0], lines[-1][1] + " " + line.strip())
        else:
            lines.append((number, line))
    return lines


def bring(file: File, use: re.Match[str]) -> None:
    """Notes what a `use` line brings in."""
    place, items, short = use[1], use[2], use[3]
    if items is None:
        file.modules[short or place.split(".")[-1]] = place
    for item in (items or "").split(","):
        words = item.split()
        if words:
            file.brought[words[-1]] = (place, words[0])


def read(path: Path) -> File:
    """The declarations and imports of a file."""
    file = File(path, place_of(path))
    sections: list[str] = []
    last = None
    for number, line in joined(path.read_text()):
        use = USE.match(line)
        if use:
            bring(file, use)
            continue
        depth = len(line) - len(line.lstrip())
        sections = sections[: depth // 2]
        section = SECTION.match(line)
        if section and depth == 2 * len(sections):
            sections.append(section[2])
            continue
        start = SIGNATURE.match(line)
        if start and depth == 2 * len(sections):
            words = frozenset(start[2].split())
            kind = start[5].removesuffix(" where")
            last = Declaration(path, number, start[3], words, " ".join([*sections, start[4]]).strip(), kind, text=line + "\n")
            file.declarations.append(last)
            continue
        if last:
            last.text += line + "\n"
            if "record" in last.words and start and depth == 2 * len(sections) + 2:
                last.fields.append((start[3], start[5]))
    return file


def read_all(folders: str) -> dict[str, File]:
    """All files that a pattern below crates/ gives, by place."""
    files = [read(path) for path in sorted((TOP / "crates").glob(folders)) if "out" not in path.parts]
    return {file.place: file for file in files}


def origin(files: dict[str, File], file: File, name: str) -> str:
    """A name with the place where it is declared, through files that hand it on; a name of the library alone."""
    if any(declaration.name == name for declaration in file.declarations):
        return f"{file.place}.{name}"
    if name in file.brought:
        place, word = file.brought[name]
        if place in files:
            return origin(files, files[place], word)
        return word
    head, _, rest = name.partition(".")
    if rest and head in file.modules:
        place = file.modules[head]
        return origin(files, files[place], rest) if place in files else name
    return name


def tree(tokens: list[str]) -> list:
    """Tokens with each bracket as a list of its kind and content."""
    stack: list[list] = [[]]
    for token in tokens:
        if token in OPEN:
            stack.append([token])
        elif token in OPEN.values() and len(stack) > 1:
            group = stack.pop()
            stack[-1].append(group)
        else:
            stack[-1].append(token)
    while len(stack) > 1:
        group = stack.pop()
        stack[-1].append(group)
    return stack[0]


class Normal:
    """The normal form of a statement: bound variables by number, those that nothing uses left out, types of data written out."""

    def __init__(self, files: dict[str, File], file: File, words: dict[str, str]):
        self.files, self.file, self.words = files, file, words
        self.next = 0

    def fresh(self) -> str:
        self.next += 1
        return f"\x00{self.next}"

    def name(self, word: str, scope: dict[str, str]) -> list[str]:
        """A name that is bound, a word for data written out, or a name with its place."""
        head, dot, rest = word.partition(".")
        if head in scope:
            return [scope[head] + dot + rest]
        found = origin(self.files, self.file, word)
        return self.words[found].split() if found in self.words else [found]

    def bind(self, names: list[str], kind: list[str], rest: list, scope: dict[str, str]) -> list[str]:
        """Binders of one type before the rest of a group; a leading arrow of the rest is theirs."""
        mark = "→"
        if rest and rest[0] in ("→", "×"):
            mark, rest = rest[0], rest[1:]
        marks = [self.fresh() for _ in names]
        out = self.form(rest, scope | dict(zip(names, marks)))
        for one in reversed(marks):
            if any(token == one or token.startswith(one + ".") for token in out):
                out = ["(", one, ":", *kind, ")", mark, *out]
            else:
                out = ["(", *kind, ")", mark, *out] if "→" in kind or "×" in kind else [*kind, mark, *out]
        return out

    def form(self, items: list, scope: dict[str, str]) -> list[str]:
        """The tokens of the normal form of the content of a group."""
        out: list[str] = []
        scope = dict(scope)
        i = 0
        while i < len(items):
            item = items[i]
            if item == "λ":
                i = self.skip(items, i + 1, scope)
                out.append("λ")
                continue
            if isinstance(item, list):
                if item[0] in "({" and ":" in item:
                    at = item.index(":")
                    return out + self.bind(item[1:at], self.form(item[at + 1 :], scope), items[i + 1 :], scope)
                if item[0] == "{" and "=" in item:
                    i += 1
                    continue
                inner = self.form(item[1:], scope)
                out += inner if len(inner) == 1 else [item[0], *inner, OPEN[item[0]]]
            else:
                word = self.name(item, scope)
                out += word if len(word) == 1 or len(items) == 1 or (i + 1 < len(items) and items[i + 1] == "→") else ["(", *word, ")"]
            i += 1
        return out

    def skip(self, items: list, i: int, scope: dict[str, str]) -> int:
        """The place behind the binders of a function, which are added to the scope."""
        while i < len(items):
            item = items[i]
            if isinstance(item, list):
                at = item.index(":") if ":" in item else len(item)
                for name in item[1:at]:
                    scope[name] = self.fresh()
            elif item == ".":
                return i + 1
            else:
                scope[item.rstrip(".")] = self.fresh()
                if item.endswith("."):
                    return i + 1
            i += 1
        return i


def numbered(tokens: list[str]) -> str:
    """Bound variables numbered in the order in which they stand."""
    numbers: dict[str, str] = {}

    def number(match: re.Match[str]) -> str:
        return numbers.setdefault(match[0], f"v{len(numbers)}")

    text = re.sub("\x00\\d+", number, " ".join(tokens))
    return re.sub(r"\( ", "(", re.sub(r" \)", ")", text))


def normal(files: dict[str, File], file: File, declaration: Declaration, words: dict[str, str]) -> str:
    """The normal form of a declaration: of its signature, and of the fields of a record one after the other."""
    text = f"{declaration.telescope} {declaration.type}"
    if declaration.fields:
        fields = " ".join(f"({name} : {kind})" for name, kind in declaration.fields)
        text = f"{declaration.telescope} where {fields} Record"
    elif not declaration.telescope:
        text = declaration.type
    return numbered(Normal(files, file, words).form(tree(TOKEN.findall(text)), {}))


def words_for_data(files: dict[str, File]) -> dict[str, str]:
    """Names for types of data (`Classes` for lists of lists of points) with what they stand for, by place and name."""
    found: dict[str, str] = {}
    for file in files.values():
        for one in file.declarations:
            body = re.search(rf"^ *{re.escape(one.name)} = (.*)$", one.text, re.M)
            if "abbrev" in one.words and one.type == "Type 0" and not one.telescope and body:
                tokens = [token for token in TOKEN.findall(body[1]) if token not in "()"]
                if all(token in DATA for token in tokens):
                    found[f"{file.place}.{one.name}"] = " ".join(TOKEN.findall(body[1]))
    return found
