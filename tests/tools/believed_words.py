"""Finds the believed definitions in another way than bench/believed, for a test that both find the same ones.

Here everything goes by words. A definition cites each of its words that its file defines or imports, also
one that it binds. Functions are found by their braces, types by their names whatever their crate. So what is
found here may be more than what is believed, but never less."""

import collections
import re

NAME = r"[^\W\d][\w'?!-]*"
HEAD = re.compile(r"^\}|^(?:pub )?(?:unsafe )?(?:impl|trait|struct|enum)\b[^{;]*", re.M)
NOTE = re.compile(r'(--|//).*|"(?:[^"\\]|\\.)*"')
OURS = re.compile(r"\buse Rattle\.(\w+)\.specs\.((?:inner\.)?[A-Z]\w*)\.\{([^}]*)\}")
MADE = re.compile(
    r"\buse Rattle\.\w+\.specs\.(?:declared|contracts)\.[a-z_.]*([A-Z]\w*)[\w.]*(?:\.\{([^}]*)\}| as (\w+))"
)
DEFINED = re.compile(
    rf"^(?:(?:pub|abbrev|unfoldable) )+(?!mod |use )(?:record |data )?({NAME})"
    rf"|^  (?:abbrev pub|unfoldable pub|pub record|pub data) ({NAME})",
    re.M,
)


def words(text):
    return set(re.findall(rf"(?<![\w'?!.-]){NAME}", text))


def imports(text):
    """What each word that a text imports means: a definition, or the name of a type."""
    known = {}
    for crate, module, names in OURS.findall(text):
        for one in names.split(","):
            there, _, here = one.strip().partition(" as ")
            known[here or there] = (crate, module, there)
    for kind, names, alias in MADE.findall(text):
        for one in (alias or names).split(","):
            known[one.split(" as ")[-1].strip()] = kind
    return known


def definitions(texts):
    """Each definition with what its words mean, itself included; and each constructor with its definition."""
    found = {}
    for path, text in texts.items():
        if "/specs/" not in path:
            continue
        crate, _, module = path.removeprefix("crates/").removesuffix(".antt").partition("/specs/")
        text = NOTE.sub("", text)
        heads = list(re.finditer(r"^module .*", text, re.M))
        starts = list(DEFINED.finditer(text))
        ends = sorted([one.start() for one in starts + heads] + [len(text)])
        module = module.replace("/", ".")
        own = {one[1] or one[2]: (crate, module, one[1] or one[2]) for one in starts}
        blocks = {}
        for one in starts:
            block = text[one.start() : next(end for end in ends if end > one.start())]
            around = [head[0] for head in heads if one[2] and head.start() < one.start()][-1:]
            blocks[one[1] or one[2]] = block + "".join(around)
        for name, block in blocks.items():
            if "data " in block.split("\n")[0]:
                made = re.findall(r"^ +((?:[A-Z]\w* )+):", block, re.M)
                for constructor in " ".join(made).split():
                    own[constructor] = (*own[name][:2], constructor)
                    found[own[constructor]] = {own[name]}
        known = {**imports(text), **own}
        for name, block in blocks.items():
            found[own[name]] = {known[word] for word in words(block) if word in known} | {own[name]}
        for name, meant in imports("\n".join(re.findall(r"^pub use .*", text, re.M))).items():
            found[crate, module, name] = {meant}
    return found


def clauses(text, at):
    """The text of a function up to its body: braces after `requires` and `ensures` are clauses."""
    end = depth = 0
    for mark in re.finditer(r"[()\[\]{};]", text[at:]):
        before = text[at : at + mark.start()]
        if mark[0] in "([{":
            if mark[0] == "{" and depth == 0 and not re.search(r"\b(requires|ensures)\b\*? ?\w*\s*$", before):
                return before
        depth += {"(": 1, "[": 1, "{": 1, ";": 0}.get(mark[0], -1)
        if mark[0] == ";" and depth == 0:
            return before
    return text[at:]


class Rust:
    """A source's text, and what the words in it mean."""

    def __init__(self, path, text, texts):
        self.path, self.text = path, NOTE.sub("", text)
        self.is_open, self.known = is_open(path, texts), imports(self.text)
        named = " ".join(re.findall(r"^(?:pub )?use [^;]+;", self.text, re.M))
        own = re.findall(r"\b(?:struct|enum|trait|type) (\w+)", self.text)
        self.types = words(named.replace("::", " ")) | set(own)

    def meant(self, text):
        for word in words(text.replace("::", " ")):
            yield self.known.get(word, word if word in self.types or "::" + word in text else None)

    def parts(self):
        """Each function and ghost member that may be public: the head that it stands under, and its text."""
        for one in re.finditer(r"^( *)(pub )?(?:const |unsafe )*(fn|ghost (?!use)\w+)\b", self.text, re.M):
            heads = [head for head in HEAD.finditer(self.text) if head.start() < one.start()]
            head = heads[-1][0] if heads and one[1] and heads[-1][0] != "}" else ""
            if one[3] == "fn" and len(one[1]) in (0, 4):
                yield head, bool(one[2]), clauses(self.text, one.start(3))
            elif one[3] != "fn" and "Model for" not in head and ("trait " in head or " for " in head):
                yield head, False, self.text[one.start() : self.text.index(";", one.start())]


def is_open(path, texts):
    """Whether other crates can name what stands in a source."""
    parts = path.split("/")
    if parts[3:] in (["lib.rt"], ["main.rt"]):
        return True
    above = "/".join(parts[:-1]) + (".rt" if len(parts) > 4 else "/lib.rt")
    shown = re.findall(r"^pub mod (\w+);", texts.get(above, ""), re.M)
    return parts[-1].removesuffix(".rt") in shown and is_open(above, texts)


class Shapes:
    """What each name of a type cites."""

    def __init__(self, sources):
        self.cited, self.is_pub, self.exported = collections.defaultdict(set), set(), set()
        values = {}
        for one in sources:
            for name, block in re.findall(r"^impl[^{]* Model for (\w+)(.*?)^\}", one.text, re.M | re.S):
                value = re.search(r"ghost Value = \{(.*?)\};", block, re.S)
                if value:
                    values.setdefault(name, set()).update(one.meant(value[1]))
            for names in re.findall(r"^pub use ([^;]+);", one.text, re.M):
                self.exported |= words(names.replace("::", " "))
        item = r"^(pub(?:\([^)]*\))? )?(struct|enum|trait|type) (\w+)(.*?)(?=^[^\s})\]wA-Z#{])"
        for one in sources:
            for pub, kind, name, block in re.findall(item, one.text + "\nend", re.M | re.S):
                fields = re.sub(r"^ *ghost .*", "", block, flags=re.M)
                if kind == "trait":
                    parts = [text for head, _, text in one.parts() if re.search(rf"trait {name}\b", head)]
                    fields = "".join(parts)
                self.cited[name] |= values[name] if name in values else set(one.meant(fields))
                if pub == "pub ":
                    self.is_pub.add((name, one.is_open))


def believed(texts):
    """The definitions that public clauses reach."""
    sources = [Rust(path, text, texts) for path, text in texts.items() if path.endswith(".rt")]
    shapes, cited = Shapes(sources), definitions(texts)
    names = {name for name, _ in shapes.is_pub}
    shown = {name for name, is_open in shapes.is_pub if is_open or name in shapes.exported}
    reached, before = set(), None
    while before != shown:
        before = set(shown)
        for one in sources:
            for head, is_pub, text in one.parts():
                of = set(re.findall(r"\w+", head.rpartition(" for ")[2].removeprefix("impl")))
                if is_shown(one, head, is_pub, text, of, shown, shapes):
                    reached.update(one.meant(text))
        shown |= names & {key for key in reached if isinstance(key, str)}
    cites, before = {**cited, **shapes.cited}, -1
    while before != len(reached):
        before = len(reached)
        reached |= {further for key in reached for further in cites.get(key, ())}
    return {key for key in reached if key in cited.get(key, ())}


def is_shown(one, head, is_pub, text, of, shown, shapes):
    if not head:
        name = re.match(r"fn (\w+)", text)
        is_main = bool(name) and name[1] == "main" and one.path.endswith("/main.rt")
        return is_main or is_pub and (one.is_open or bool(name) and name[1] in shapes.exported)
    ours = {word for word in of if word in shapes.cited}
    trait = re.match(r"impl(?:<.*?>)? (\w+)\S* for ", head)
    if trait and trait[1] in shapes.cited and trait[1] not in shown:
        return False
    if head.startswith("pub trait") or head.startswith("trait"):
        return bool(of & shown)
    return (is_pub or " for " in head) and (not ours or bool(ours & shown))
