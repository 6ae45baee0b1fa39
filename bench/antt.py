"""The definitions of crates/*/specs, and what each of them names: read by claim.py. Run at the top of the repository.

A definition is what a file of specs/ declares: a signature with its clauses, a record with its fields, a data type with its constructors,
or a block (`mutual`, `module _`). A name stands for what the file's own lines and its `use` lines say, but where it is bound nearer: by a
pattern, a λ, a `let`, an argument of a type, or a field above. A constructor and a field count for what declares them.

Things are told by tuples: ("definition", MODULE, NAME), ("type", CRATE, FILE, NAME) for what src/ declares, ("kit", MODULE, NAME).
"""
import functools
import glob
import os
import re

WORD = r'[^\s(){}.;,@"«»]+'
TOKEN = re.compile(rf'\s+|--[^\n]*|(?P<text>"(?:\\.|[^"\\])*")|(?P<path>{WORD}(?:\.{WORD})*)|(?P<field>(?:\.{WORD})+)|(?P<sign>[(){{}};,.])')
MARKS = r"(?:(?:pattern|unfoldable|abbrev|pub|axiom) )*"
SIGNATURE = re.compile(rf"{MARKS}((?!λ )\S+)(?: \{{[^}}]*\}})? :(?: |$)")
DECLARED = re.compile(rf"{MARKS}(record|data) (\S+)")
BLOCK = re.compile(rf"{MARKS}(mutual|module _)")
FIXITY = re.compile(r"infix[lr]? \d+ (\S+)")
IMPORT = re.compile(r"^(?:unfoldable |abbrev )*(pub )?use ([^\s{}]+?)(?:\.\{([^}]*)\}| as (\S+))?$", re.MULTILINE)
TYPE = re.compile(r"^ *(?:pub(?:\([a-z]+\))? )?(?:struct|enum|trait|type) (\w+)", re.MULTILINE)
SILENT = set("→ × = : | ↦ _ λ let in record Type ⊔ [ ]".split())
PRELUDE = set("⊥ Unit tt absurd ¬◌".split())
KIT_CONSTRUCTORS = set("zero suc true false pos negsuc [] ◌∷◌".split())


def read(path):
    with open(path, encoding="utf-8") as file:
        return file.read()


class Definition:
    """What is declared as one: its names, the lines of the comment above it, its own lines, and where it stands."""

    def __init__(self, module, name, comment):
        self.module, self.name, self.comment, self.lines, self.names = module, name, comment, [], [name]

    def key(self):
        return ("definition", self.module.name, self.name)

    def count(self):
        """How many lines it has, without comments and blank ones."""
        return sum(bool(line.strip()) and not line.lstrip().startswith("--") for line in self.lines)


# ---- the terms of a text

def tree_of(text):
    """The words of a text: lists of segments for paths, a string for signs and quoted texts, a tuple for what brackets hold."""
    stack = [("", [])]
    for found in TOKEN.finditer(text):
        kind = found.lastgroup
        if kind == "path":
            stack[-1][1].append(found[0].split("."))
        elif kind == "text":
            stack[-1][1].append('"')
        elif kind == "sign" and found[0] in "({":
            stack.append((found[0], []))
        elif kind == "sign" and found[0] in ")}":
            stack[-2][1].append(stack.pop())
        elif kind == "sign":
            stack[-1][1].append(found[0])
    assert len(stack) == 1, text
    return stack[0][1]


def is_word(item, *words):
    return isinstance(item, list) and len(item) == 1 and (not words or item[0] in words)


def at_word(items, word, start=0):
    """Where this word stands among these items, or behind them all."""
    return next((at for at in range(start, len(items)) if is_word(items[at], word)), len(items))


def binder_of(item):
    """The names and the type of an argument that has a name, as `(x y : A)`, and else None."""
    if isinstance(item, tuple):
        at = at_word(item[1], ":")
        if 0 < at < len(item[1]) and all(is_word(each) for each in item[1][:at]):
            return [each[0] for each in item[1][:at]], item[1][at + 1 :]
    return None


class Walk:
    """Tells each name of a term that isn't bound in it."""

    def __init__(self, module, told):
        self.module, self.told = module, told

    def term(self, items, bound):
        start, at = bound, 0
        while at < len(items):
            item = items[at]
            if item in (",", ";"):
                bound = start
            elif is_word(item, "λ"):
                at, bound = self.arguments(items, at + 1, bound)
            elif is_word(item, "let"):
                at, bound = self.binding(items, at + 1, bound)
            elif isinstance(item, list):
                self.path(item, bound)
            elif isinstance(item, tuple) and binder_of(item):
                bound = self.argument(item, bound)
            elif isinstance(item, tuple):
                self.group(item, bound)
            at += 1

    def argument(self, item, bound):
        names, kind = binder_of(item)
        self.term(kind, bound)
        return bound | set(names)

    def arguments(self, items, at, bound):
        """The arguments of a λ, up to its dot."""
        while items[at] != ".":
            bound = self.argument(items[at], bound) if binder_of(items[at]) else bound | self.pattern(items[at], bound)
            at += 1
        return at, bound

    def binding(self, items, at, bound):
        """What a `let` binds, up to its `in`."""
        depth, end = 1, at
        while depth:
            depth += is_word(items[end], "let") - is_word(items[end], "in")
            end += 1
        equal = at_word(items, "=", at)
        sort = min(at_word(items, ":", at), equal)
        names = set().union(*(self.pattern(each, bound) for each in items[at:sort]))
        inside = bound | {each[0] for each in items[at + 1 : sort] if is_word(each)}
        self.term(items[sort + 1 : equal], bound)
        self.term(items[equal + 1 : end - 1], inside)
        return end - 1, bound | names

    def group(self, item, bound):
        """What brackets hold; in braces a name before `=` is that of a field or of an argument."""
        if item[0] == "(":
            return self.term(item[1], bound)
        part = []
        for each in item[1] + [";"]:
            if each != ";":
                part.append(each)
                continue
            self.term(part[2:] if len(part) > 1 and is_word(part[1], "=") else part, bound)
            part = []

    def pattern(self, item, bound):
        """The names that a pattern binds. Its constructors are told."""
        if is_word(item):
            if item[0] in SILENT or item[0][0].isdigit():
                return set()
            if self.module.is_constructor(item[0]):
                self.told(item)
                return set()
            return {item[0]}
        if isinstance(item, list):
            self.told(item)
            return set()
        if isinstance(item, tuple):
            parts = item[1][2:] if item[0] == "{" and len(item[1]) > 1 and is_word(item[1][1], "=") else item[1]
            return set().union(*(self.pattern(each, bound) for each in parts))
        return set()

    def path(self, path, bound):
        if path[0] not in bound and path[0] not in SILENT and not path[0][0].isdigit():
            self.told(path)


# ---- modules

def items_of(lines, indent):
    """The lines of each item: one that stands so far to the right, with those that go on behind it."""
    items = []
    for line in lines:
        if not line.strip() or line.lstrip().startswith("--"):
            continue
        if not items or len(line) - len(line.lstrip()) <= indent and line.lstrip()[0] not in ")}":
            items.append([])
        items[-1].append(line)
    return items


def formed(line):
    """How a line begins a definition: what was found, and which part of it is the name."""
    return [(found, part) for form, part in ((DECLARED, 2), (FIXITY, 1), (SIGNATURE, 1)) if (found := form.match(line))][:1]


class Module:
    """A file of specs/: its definitions by their names, and what its `use` lines bring in."""

    def __init__(self, path, name):
        self.path, self.name, self.text = path, name, read(path)
        self.definitions, self.owners, self.constructors = {}, {}, set()
        self.used, self.heads, self.passed = {}, {}, set()
        self.header()
        self.body()

    def header(self):
        for passed, module, names, other in IMPORT.findall(self.text):
            if not names:
                self.heads[other or module.rpartition(".")[2]] = module
                continue
            for name in filter(None, map(str.strip, names.split(","))):
                path, _, own = name.partition(" as ")
                below, _, item = path.rpartition(".")
                self.used[own or item] = (module + ("." + below if below else ""), item)
                if passed:
                    self.passed.add(own or item)

    def body(self):
        """Cuts the file into definitions."""
        comment, current = [], None
        for line in IMPORT.sub("", self.text).split("\n"):
            if not line.strip():
                comment = []
                if current:
                    current.lines.append("")
            elif line.startswith("--"):
                comment.append(line)
            elif not re.match(r"(pub )?mod ", line):
                name = self.begun(line)
                if name and not (current and current.name == name):
                    current = self.definitions[name] = Definition(self, name, comment)
                elif comment:
                    current.lines.extend(comment)
                current.lines.append(line)
                comment = []
        for each in self.definitions.values():
            while not each.lines[-1]:
                each.lines.pop()
            self.declare(each)

    def begun(self, line):
        """The name of the definition that begins with this line; None where one goes on."""
        if line.startswith(" "):
            return None
        if BLOCK.match(line):
            return f"block {len(self.definitions)}"
        return next((found[part] for found, part in formed(line)), None)

    def declare(self, definition):
        """Notes the names of a definition, with those of a block's parts, and the constructors of a data type."""
        lines = definition.lines
        if BLOCK.match(lines[0]):
            definition.names = [found[part] for item in items_of(lines[1:], 2) for found, part in formed(item[0].strip())]
        built = [name for kind, names, _ in fields_of(definition) if kind == "constructor" for name in names] if DECLARED.match(lines[0]) else []
        self.constructors.update(built)
        self.owners.update(dict.fromkeys([*definition.names, *built], definition))

    def is_constructor(self, name):
        """Whether a name in a pattern is that of a constructor."""
        name = self.operator(name)
        if name in self.owners:
            return name in self.constructors
        if name not in self.used:
            return False
        module, item = self.used[name]
        found = item_of(module, item)
        if found and found[0] == "definition":
            return item in library()[found[1]].constructors
        return ".declared." in module or item in KIT_CONSTRUCTORS or item[0].isupper()

    @functools.cached_property
    def parts(self):
        """The parts of the operators in scope, each with the operator's name."""
        names = [name for name in (*self.owners, *self.used, *PRELUDE) if "◌" in name]
        return {part: name for name in names for part in name.split("◌") if part}

    def operator(self, word):
        """The name that a word stands for where it is a part of an operator, or of one with an argument left out."""
        if word in self.owners or word in self.used:
            return word
        return self.parts.get(word.strip("◌"), word)

    def resolve(self, path):
        """What a path stands for here; None where this isn't known."""
        head = self.operator(path[0])
        whole = [self.heads[head], *path[1:]] if head in self.heads else path
        if head in self.heads or head == "Rattle":
            found = next((it for at in range(len(whole) - 1, 0, -1) if (it := item_of(".".join(whole[:at]), whole[at]))), None)
            if found:
                return found
        if head in self.owners:
            return self.owners[head].key()
        if head in self.used:
            return item_of(*self.used[head])
        return ("kit", "Prim", head) if head in PRELUDE else None


def module_of(path):
    crate, _, rest = path.removeprefix("crates/").partition("/specs/")
    return f"Rattle.{crate}.specs.{rest.removesuffix('.antt').replace('/', '.')}"


@functools.cache
def library():
    """All modules of specs/ by their names."""
    paths = sorted(glob.glob("crates/*/specs/**/*.antt", recursive=True))
    return {module_of(path): Module(path, module_of(path)) for path in paths if not path.endswith("/Lib.antt")}


def item_of(module, name):
    """What a module has under a name; None where it has no such item."""
    if ".specs.declared." in module:
        return declared(module + "." + name)
    if not module.startswith("Rattle.civl_") or ".specs.contracts." in module or ".proofs." in module:
        return ("kit", module, name)
    found = library().get(module)
    if not found:
        return None
    if name in found.owners:
        return found.owners[name].key()
    return item_of(*found.used[name]) if name in found.passed else None


# ---- types of src/

@functools.cache
def types_of(path):
    return TYPE.findall(read(path))


@functools.cache
def declared(module):
    """The type of src/ to which a path of the logic belongs: the first of its names that a file declares or passes on."""
    crate, _, rest = module.removeprefix("Rattle.").partition(".specs.declared.")
    if not crate.startswith("civl_"):
        return ("kit", *module.rpartition(".")[::2])
    parts = rest.split(".")
    for at in range(len(parts)):
        path = f"crates/{crate}/src/{'/'.join(parts[:at]) or 'lib'}.rt"
        if os.path.exists(path) and re.search(rf"\b(?:struct|enum|trait|type|use [^;]*)\W*\b{parts[at]}\b", read(path)):
            found = rust_type(crate, parts[at], path)
            if found:
                return found
    return None


def rust_type(crate, name, path):
    """The type of this name that a file of src/ means: its own, or the one that its crate, or the crate that it is used from, declares."""
    if name in types_of(path):
        return ("type", crate, path, name)
    used = re.search(rf"^(?:pub )?use (crate|civl_\w+)\b[^;]*\b{name}\b", read(path), re.MULTILINE)
    owner = used[1] if used and used[1] != "crate" else crate
    homes = [each for each in sorted(glob.glob(f"crates/{owner}/src/**/*.rt", recursive=True)) if name in types_of(each)]
    homes.sort(key=lambda home: used is None or os.path.basename(home)[:-3] not in re.findall(r"\w+", used[0]))
    return ("type", owner, homes[0], name) if homes else None


# ---- what rests on what

def clauses_of(lines, indent):
    """The signatures and clauses among these lines: the kind, and the words on both sides of what divides them."""
    for item in items_of(lines, indent):
        text, first = "\n".join(item), item[0].strip()
        if BLOCK.match(first):
            yield "header", tree_of(text.partition("where")[0]), []
            yield from clauses_of(lines[1:], indent + 2)
            return
        if not FIXITY.match(first) and not first.startswith("unfolding "):
            words, is_signature = tree_of(text), SIGNATURE.match(first)
            at = at_word(words, ":" if is_signature else "=")
            yield "signature" if is_signature else "clause", words[:at], words[at + 1 :]


def fields_of(definition):
    """What a record or a data type declares: its header, and each of its fields or constructors, with the words of its type."""
    lines = definition.lines
    head = next(at for at, line in enumerate(lines) if line.endswith("where"))
    yield "header", *divided(tree_of("\n".join(lines[: head + 1])[: -len("where")]))
    for item in items_of(lines[head + 1 :], 2):
        names, kind = divided(tree_of("\n".join(item)))
        told = [each[0] for each in names if is_word(each) and each[0] != "pub"]
        yield "constructor" if DECLARED.match(lines[0])[1] == "data" else "field", told, kind


def divided(words):
    at = at_word(words, ":")
    return words[:at], words[at + 1 :]


def fields_named(definition):
    """The fields of a record, each with its text and what its type names."""
    found, lines = {}, definition.lines
    head = next(at for at, line in enumerate(lines) if line.endswith("where"))
    for item, (_, names, kind) in zip(items_of(lines[head + 1 :], 2), list(fields_of(definition))[1:]):
        paths = []
        Walk(definition.module, paths.append).term(kind, set())
        found.update(dict.fromkeys(names, ("\n".join(item), [it for path in paths if (it := definition.module.resolve(path))])))
    return found


def references(definition):
    """What a definition names: pairs of a path and what it stands for."""
    module, paths, bound = definition.module, [], set()
    walk = Walk(module, paths.append)
    own = set(definition.names) | {part for name in definition.names for part in name.split("◌") if part}
    terms = fields_of(definition) if DECLARED.match(definition.lines[0]) else clauses_of(definition.lines, 0)
    for kind, left, right in terms:
        if kind == "header":
            for item in left:
                bound = walk.argument(item, bound) if binder_of(item) else bound
        if kind == "clause":
            names = set().union(*(walk.pattern(each, bound) for each in left if not is_word(each, *own)))
            walk.term(right, bound | names)
        else:
            walk.term(right, bound)
        if kind == "field":
            bound = bound | set(left)
    return [(".".join(path), module.resolve(path)) for path in paths]


def type_references(kind, crate, path, name):
    """What a type of src/ is in clauses: the value of its model, or else the types of its fields."""
    text = read(path)
    model = re.search(rf"^impl(?:<[^>]*>)? Model for {name}\b.*?^\}}", text, re.MULTILINE | re.DOTALL)
    if model:
        value = re.search(r"ghost Value = \{(.*?)\};", model[0], re.DOTALL)[1]
        return [found for found in ghost_references(model[0], value) if found]
    own = rf"^ *(?:pub(?:\([a-z]+\))? )?(?:(?:struct|enum) {name}\b[^{{;(]*(?:\{{.*?^ *\}}|\([^;]*\);|;)|type {name}\b.*?;)"
    body = re.search(own, text, re.MULTILINE | re.DOTALL)
    words = re.findall(r"\b[A-Z]\w*", re.sub(r"//[^\n]*|#\[[^\]]*\]|^ *[A-Z]\w*", "", body[0], flags=re.MULTILINE)) if body else []
    return [found for word in words if word != name and (found := rust_type(crate, word, path))]


def ghost_references(text, part):
    """What a part of a text of src/ names by the text's `ghost use` lines."""
    names, heads = {}, {}
    for module, inside, other in re.findall(r"ghost use ([^\s{};]+?)(?:\.\{([^}]*)\}| as (\w+))?;", text):
        heads.update({other or module.rpartition(".")[2]: module} if not inside else {})
        for name in filter(None, map(str.strip, inside.split(","))):
            item, _, own = name.partition(" as ")
            names[own or item] = (module, item)
    for found in TOKEN.finditer(part):
        path = found[0].split(".") if found.lastgroup == "path" else [""]
        if path[0] in names:
            yield item_of(*names[path[0]])
        elif path[0] in heads and len(path) > 1:
            yield item_of(heads[path[0]], path[1])


@functools.cache
def rests_on(key):
    """What a definition or a type names, and the paths of it that stand for nothing known."""
    if key[0] == "type":
        return frozenset(type_references(*key)), ()
    if key[0] == "kit":
        return frozenset(), ()
    found = references(library()[key[1]].definitions[key[2]])
    return frozenset(it for _, it in found if it and it != key), tuple(path for path, it in found if it is None)


def closure(roots, without=frozenset()):
    """All that these rest on, with themselves, but for what is left out; in the order in which it is met, the first named first."""
    seen, rest = {}, list(roots)[::-1]
    while rest:
        key = rest.pop()
        if key not in seen and key not in without:
            seen[key] = None
            rest.extend(sorted(rests_on(key)[0], reverse=True))
    return seen
