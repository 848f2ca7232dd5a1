"""Reads the contracts of the repository: each public call with its clauses, each definition, and what each of them cites."""
import os
import re
import textwrap

TOP = os.path.dirname(os.path.dirname(os.path.abspath(__file__)))

DEFINITION = re.compile(r"(?:(?:abbrev|unfoldable) )?pub (?:record |data )?([^\s:({]+)")
IMPORT = re.compile(r"\buse ([\w.]+?)(?:\.\{([^}]*)\}| as (\w+))")
WORD = re.compile(r"[A-Za-z_][\w?!'-]*")
TYPE = re.compile(r"pub (?:const (?!fn)|(?:struct|enum|trait|type) )(\w+)")
INNER_TYPE = re.compile(r"(?:pub\(crate\) )?(?:const (?!fn)|(?:struct|enum|trait|type) )(\w+)")
FIELD = re.compile(r"^\s+(?:pub )?[\w?!'-]+\s*:(?!:)")
CLAUSE = re.compile(r"(requires|ensures)\b")
# Words of the language of contracts, in any text.
LANGUAGE = set(
    "requires ensures self Self result record data pub abbrev unfoldable where if then else let in case of Type Prop λ refl match opaque "
    "as Some None Ok Err Unit tt omega u8 u16 u32 u64 u128 usize bool str".split()
)


def read_lines(path):
    with open(path, encoding="utf-8") as it:
        return it.read().split("\n")


def braces(text):
    return text.count("{") - text.count("}")


def add_imports(imports, found):
    """Notes which crate or library a name comes from, its module there, and its name there."""
    path = found[1].split(".")
    inside = path[0] == "Rattle" and len(path) > 3 and path[2] == "specs"
    if found[3]:
        imports[found[3]] = ("", found[1], found[3])
    for name in (found[2] or "").split(","):
        own, _, other = name.strip().partition(" as ")
        shown = other or (own.split(".")[-1] if re.match(r"\w+\.\w+$", own) else own)
        imports[shown] = (path[1], ".".join(path[3:]), own) if inside else ("", found[1], own)


class Definition:
    """A definition of specs/, with the comment above it, its text, and where it is cited."""

    def __init__(self, crate, module, name, comment, text):
        self.crate, self.module, self.name, self.comment, self.text = crate, module, name, comment, text
        self.used_by = {}

    def cases(self):
        """The names of its cases, where it is a type with some."""
        found = (re.match(r"\s+(?:pub )?([^\s:]+)\s*:", line) for line in self.text[1:]) if self.text[0].startswith("pub data") else ()
        return [it[1] for it in found if it]

    def link(self):
        return f"{self.crate}.{self.module}.html#{self.name}"


class Module:
    """A file of specs/: its sentence, what it imports, and its definitions in their order."""

    def __init__(self, crate, name, path):
        self.crate, self.name, self.imports, self.definitions, self.handed_on = crate, name, {}, [], set()
        self.parameters = set()
        lines = read_lines(path)
        head = next((k for k, it in enumerate(lines) if not it.startswith("--")), len(lines))
        self.sentence = paragraphs([it[2:] for it in lines[:head]])
        self.read(lines[head:])
        self.named = {}
        for one in self.definitions:
            while one.text and not one.text[-1].strip():
                one.text.pop()
            for own in [one.name, *one.cases()]:
                self.named.setdefault(own, one)

    def read(self, lines):
        comment, text, inside = [], None, ""
        for line in lines:
            if inside and line and not line[0].isspace() and not line.startswith("--"):
                inside = ""
            plain = line.removeprefix(inside)
            is_top = plain and not plain[0].isspace()
            found = IMPORT.search(line)
            if found and is_top:
                self.add(found)
                comment, text = [], None
            elif re.match(r"module _", line):
                inside, comment, text = "  ", [], None
                self.parameters.update(bound_in(line))
            elif is_top and plain.startswith("--"):
                if text is not None:
                    comment, text = [], None
                comment.append(plain[2:])
            elif is_top and DEFINITION.match(plain):
                text = [plain]
                self.definitions.append(Definition(self.crate, self.name, DEFINITION.match(plain)[1], paragraphs(comment), text))
                comment = []
            elif text is not None and is_proof(self.definitions[-1], plain):
                text = None
            elif text is not None:
                text.append(plain)

    def add(self, found):
        add_imports(self.imports, found)
        if found.string.startswith("pub use") and found[2]:
            self.handed_on.update(it.strip() for it in found[2].split(","))


def is_proof(one, line):
    """Whether a line begins the proof of a law: a name with no word before it that makes it a definition has one."""
    return re.match(r"pub (?!record |data )", one.text[0]) and line.split()[:1] == [one.name]


def paragraphs(lines):
    """Lines of a comment as one text, with an empty line between paragraphs; one that is set in stays as it stands. A line of
    dashes with the title of a part counts where nothing else does."""
    own = [it.rstrip() for it in lines if not it.startswith(" ---- ")] or [it[6:] for it in lines]
    blocks = [it.strip("\n") for it in re.split(r"\n\s*\n", "\n".join(own))]
    return "\n\n".join(set_in(it) if it.startswith("   ") else " ".join(it.split()) for it in blocks if it.strip())


def set_in(block):
    return "\n".join(f"   {it}" for it in textwrap.dedent(block).split("\n"))


class Call:
    """A public call: its file, whose it is, its sentence, its signature, and its clauses with the comments before them."""

    def __init__(self, crate, file, owner, name, sentence, trait):
        self.crate, self.file, self.owner, self.name, self.sentence, self.trait = crate, file, owner, name, sentence, trait
        self.signature, self.clauses, self.imports, self.known = [], [], {}, set()
        self.twin, self.is_inner = "", False

    def anchor(self):
        return (f"{self.owner}.{self.name}" if self.owner else self.name) + self.twin

    def shown(self):
        return self.anchor().removesuffix(self.twin) if self.twin else self.anchor()

    def link(self):
        return f"{self.crate}.html#{self.anchor()}"

    def clauses_text(self):
        return [line for _, text in self.clauses for line in clause_text(text)]


class Type:
    """A type or a constant of the code, as others see it."""

    def __init__(self, crate, file, name, sentence, text, is_public):
        self.crate, self.file, self.name, self.sentence, self.text, self.is_public = crate, file, name, sentence, text, is_public

    def anchor(self):
        return f"type.{self.name}"

    def link(self):
        return f"{self.crate}.html#{self.anchor()}"


class Source:
    """A file of src/: its public calls and its types, with the names that their clauses know."""

    def __init__(self, crate, path):
        self.crate, self.path, self.file = crate, path, os.path.relpath(path, f"{TOP}/crates/{crate}")
        self.lines, self.at, self.calls, self.types = read_lines(path), 0, [], []
        self.whole, self.own, self.owner, self.trait, self.is_trait, self.ghosts = {}, {}, "", "", False, set()
        sentence, is_test = [], False
        while self.at < len(self.lines):
            line = self.lines[self.at]
            plain = line.strip()
            if plain.startswith("mod tests"):
                break
            if plain.startswith("///"):
                sentence.append(plain[3:])
            elif plain.startswith("#["):
                is_test = is_test or "cfg(test)" in plain
            elif plain and not plain.startswith("//"):
                self.read_item(line, plain, sentence, is_test)
                sentence, is_test = [], False
            self.at += 1
        code = self.code_names()
        for call in self.calls:
            call.imports = {**code, **call.imports}

    def read_item(self, line, plain, sentence, is_test):
        if line.startswith("}"):
            self.owner, self.trait, self.is_trait, self.own, self.ghosts = "", "", False, {}, set()
        elif plain.startswith("ghost use"):
            self.read_use(line, plain)
        elif plain.startswith("ghost "):
            self.ghosts.update(WORD.findall(plain)[1:2])
        elif re.match(r"pub (const )?fn \w+", plain) or self.is_trait and re.match(r"fn \w+", plain):
            call = self.read_call(sentence)
            if not is_test:
                self.calls.append(call)
        elif not line[0].isspace():
            self.read_top(line, sentence, is_test)

    def code_names(self):
        """The names that the file's code takes from the repository's crates, and those of its own crate."""
        names = {it.name: (self.crate, "code", it.name) for it in self.types}
        for path, inner, one in re.findall(r"^use ([\w:]+?)(?:::\{([^}]*)\}|::(\w+));", "\n".join(self.lines), re.M):
            first = path.split("::")[0]
            for name in (inner or one).split(","):
                name = name.strip().split("::")[-1]
                names[name] = (self.crate if first == "crate" else first, "code", name)
        return names

    def read_use(self, line, plain):
        while ";" not in plain and self.at + 1 < len(self.lines):
            self.at += 1
            plain += " " + self.lines[self.at].strip()
        found = IMPORT.search(plain)
        if found:
            add_imports(self.own if line.startswith(" ") else self.whole, found)

    def read_top(self, line, sentence, is_test):
        named = TYPE.match(line) or INNER_TYPE.match(line)
        if named and not is_test:
            self.types.append(Type(self.crate, self.file, named[1], paragraphs(sentence), self.type_text(line), bool(TYPE.match(line))))
        if re.match(r"(pub )?(unsafe )?(impl|trait)\b", line) and not line.rstrip().endswith("}"):
            while not line.rstrip().endswith("{") and self.at + 1 < len(self.lines):
                self.at += 1
                line += " " + self.lines[self.at].strip()
            self.owner, self.trait, self.is_trait = owner_of(line)
            self.ghosts = set(WORD.findall(line))

    def type_text(self, line):
        """What others see of a type: its public fields, its cases, and its members that only contracts see."""
        if not line.rstrip().endswith("{") or " trait " in line:
            text, at = [line.rstrip("{ ")], self.at
            while " trait " not in line and not line.rstrip().endswith((";", "}", "{")) and at + 1 < len(self.lines):
                at += 1
                line = self.lines[at]
                text.append(line.rstrip("{ "))
            return text
        text, hidden, is_case = [line], False, " enum " in f" {line}"
        for inner in self.lines[self.at + 1 :]:
            if inner.startswith("}"):
                break
            plain = inner.strip()
            if is_case or plain.startswith(("pub ", "ghost ")):
                text.append(inner)
            elif plain and not plain.startswith(("//", "#[")):
                hidden = True
        return text + (["    .."] if hidden else []) + ["}"]

    def read_call(self, sentence):
        name = re.search(r"fn (\w+)", self.lines[self.at])[1]
        call = Call(self.crate, self.file, self.owner, name, paragraphs(sentence), self.trait)
        call.imports = {**self.whole, **self.own}
        before = []
        while self.at < len(self.lines):
            plain = self.lines[self.at].strip()
            if CLAUSE.match(plain):
                text = [plain]
                while braces("\n".join(text)) > 0:
                    self.at += 1
                    text.append("    " + self.lines[self.at].strip())
                call.clauses.append((paragraphs(before), text))
                before = []
                plain = text[-1]
            elif plain.startswith("//"):
                before.append(plain.lstrip("/"))
            elif plain in ("{", "{}"):
                break
            elif plain:
                call.signature.append(self.lines[self.at].rstrip())
                if not call.clauses and plain.endswith(("{", ";")):
                    call.signature[-1] = call.signature[-1].rstrip("{; ").rstrip()
                    break
            if call.clauses and plain.endswith((";", "{}")):
                break
            self.at += 1
        spaces = min((len(it) - len(it.lstrip()) for it in call.signature), default=0)
        call.signature = [it[spaces:] for it in call.signature]
        call.known = self.ghosts | set(WORD.findall(" ".join(call.signature)))
        return call


# Types of the libraries that keep no allocator, and words of the language in types.
PLAIN = set("Option Some None Result Ok Err Self Ordering AtomicU64 AtomicBool Range Duration PhantomData Fn FnMut Sized Copy Clone".split())


def keepers_among(sources):
    """The types that hold an allocator, or something that may keep one, in any field, also of the types of their fields: each
    type of a library counts that isn't known to keep none. A type is its crate and its name."""
    fields = {}
    for source in sources:
        text, names = "\n".join(it for it in source.lines if not it.strip().startswith(("//", "ghost ", "#"))), source.code_names()
        named = re.findall(r"^(?:pub(?:\(crate\))? )?(?:struct|enum|type) (\w+)([^{;]*?(?:\{.*?^\}|\([^;]*\);|\{\}|=[^;]*;|;))", text, re.M | re.S)
        for name, body in named:
            cases = re.findall(r"^    (\w+)(?=[ ({,])", body, re.M)
            fields[source.crate, name] = {kind_of(it, names) for it in kinds_in(body) if it not in cases}
        for name in re.findall(r"^(?:pub(?:\(crate\))? )?trait (\w+)", text, re.M):
            fields.setdefault((source.crate, name), set())
    keeping, before = set(), -1
    while before < len(keeping):
        before = len(keeping)
        keeping |= {one for one, kinds in fields.items() if any(may_keep(it, fields, keeping) for it in kinds)}
    return fields, keeping


def kind_of(name, names):
    """A type by its crate and its name, by what a file's names stand for."""
    return (names[name][0], names[name][2]) if name in names else ("", name)


def may_keep(kind, fields, keeping):
    """Whether a type holds an allocator, or may; one that a crate hands on counts by its name."""
    if kind in fields:
        return kind in keeping
    same = [it for it in fields if it[1] == kind[1]]
    return not same or any(it in keeping for it in same)


def kinds_in(text):
    """The types that a text names, but for type parameters and what is known to keep nothing."""
    return {it for it in WORD.findall(text) if it[0].isupper() and len(it) > 1 and not it.isupper()} - PLAIN


def parameters_of(call):
    """The parameters of a call, each with the words of its type; `self` has its owner's."""
    text = " ".join(it.strip() for it in call.signature).partition("fn ")[2]
    text = text[len(call.name) :]
    inside = text[len(text) - len(without_parameters(text)) :] if text.startswith("<") else text
    depth, parts = 0, [""]
    for k, c in enumerate(inside):
        depth += (c in "(<[") - (c in ")]" or c == ">" and inside[k - 1] not in "-=")
        if not depth:
            break
        parts[-1] += c
        if c == "," and depth == 1:
            parts.append("")
    for part in parts:
        name, colon, kind = part.strip("(, ").partition(":")
        if name.split() and name.split()[-1] == "self" and not colon:
            yield "self", {(call.crate, call.owner)}
        elif colon:
            yield name.split()[-1], {kind_of(it, call.imports) for it in kinds_in(kind)}


def bounds_of(call):
    """The words of a call's bounds."""
    text = " ".join(it.strip() for it in call.signature).partition("fn ")[2][len(call.name) :]
    return set(WORD.findall(text[: len(text) - len(without_parameters(text))])) if text.startswith("<") else set()


def owner_of(block):
    """Whose calls an impl or a trait has, the trait that they are of, and whether each of them is one by it."""
    trait = re.match(r"pub trait (\w+)", block)
    if trait:
        return trait[1], "", True
    bare = without_parameters(re.sub(r"^(unsafe )?impl\s*", "", block))
    of = re.match(r"(\w+).*?\bfor (?:&mut |&)?(\w+)", bare)
    if of:
        return of[2], of[1], True
    name = WORD.match(bare)
    return (name[0] if name else ""), "", False


def without_parameters(bare):
    """What an impl is of, without the parameters in front."""
    depth = 0
    for k, c in enumerate(bare if bare.startswith("<") else ""):
        depth += (c == "<") - (c == ">" and bare[k - 1] != "-")
        if not depth:
            return bare[k + 1 :].strip()
    return bare


def bound_in(text):
    """Names that a text binds: those of a lambda, of typed parameters, of a record's fields, and of a let."""
    words = set()
    for part in re.findall(r"λ\s*([^.]*?)\.", text) + re.findall(r"[({]([\w\s'-]+?)\s*:", text):
        words.update(WORD.findall(part))
    words.update(re.findall(r"[{;]\s*([\w-]+)\s*=", text) + re.findall(r"\blet\s+([\w-]+)", text))
    return words


def bound_in_definition(one):
    """Names that a definition binds: those above, its fields, and what stands before the = of an equation."""
    words = bound_in("\n".join(one.text)) | {one.name}
    for line in one.text:
        field = re.match(r"\s+(?:pub )?([\w-]+)\s*:", line)
        if field:
            words.add(field[1])
        if line and not line[0].isspace() and " =" in line:
            words.update(WORD.findall(line.split(" =")[0]))
        words.update(re.findall(r"^\s*([\w-]+)(?: [\w-]+)* =(?: |$)", line))
    return words


def cited_in(lines):
    """The names in a text, but for fields and comments."""
    text = re.sub(r'"[^"\n]*"', "", "\n".join(re.sub(r"--.*$", "", FIELD.sub(":", it)) for it in lines))
    return set(re.findall(r"(?<![\w.◌'])" + WORD.pattern, text))


class Book:
    def __init__(self):
        self.crates, self.modules, self.calls, self.types, self.sentences, self.lemmas = {}, {}, {}, {}, {}, {}
        self.hands_on, self.sources, self.missing = {}, [], []
        for line in read_lines(f"{TOP}/crates.txt"):
            name, colon, rest = line.partition("#")[0].partition(":")
            if colon:
                self.crates[name.split()[0]] = rest.split()
        self.above = {crate: [it for it, low in self.crates.items() if crate in low] for crate in self.crates}
        for crate in self.crates:
            self.read(crate)
        self.settle_traits()
        for source in self.sources:
            self.check_source(source)
        for module in self.modules.values():
            self.check_module(module)
        self.promises = list(self.ladder())

    def settle_traits(self):
        """Leaves out calls by traits of libraries, and gives those by a trait of the repository the trait's sentences."""
        said = {(call.owner, call.name): call.sentence for calls in self.calls.values() for call in calls if not call.trait}
        for crate, calls in self.calls.items():
            for call in calls:
                call.sentence = call.sentence or said.get((call.trait, call.name), "") if call.trait else call.sentence
            self.calls[crate] = [it for it in calls if not it.trait or (it.trait, it.name) in said and it.clauses]
            for call in self.calls[crate]:
                number = sum(it.owner == call.owner and it.name == call.name for it in self.calls[crate][: self.calls[crate].index(call)])
                call.twin = f"-{number + 1}" if number else ""
        kept = {id(it) for calls in self.calls.values() for it in calls}
        for source in self.sources:
            source.calls = [it for it in source.calls if id(it) in kept]

    def ladder(self):
        """The rows of the ladder of docs/PROMISES.md: a promise, with its calls and their clauses, each with what it stands for."""
        text = "\n".join(read_lines(f"{TOP}/docs/PROMISES.md")).partition("\n## The ladder\n")[2].partition("\n## ")[0]
        rows = [[it.strip() for it in line.strip("| ").split(" | ")] for line in text.split("\n") if line.startswith("| ") and "`" in line]
        if not rows:
            self.miss("docs/PROMISES.md: no ladder is found")
        for said, calls, clauses in rows:
            named = [(it, self.calls_named(it)) for it in re.findall(r"`([^`]*)`", calls)]
            wanted = re.findall(r"`([^`]*)`", clauses)
            found = {it: [one for _, all_of in named for one in all_of if self.has_clause(one, it)] for it in wanted}
            for call, all_of in named:
                if not any(one in found[it] for one in all_of for it in wanted):
                    self.miss(f"docs/PROMISES.md: {call} has none of {clauses}")
            for it in wanted:
                if not found[it]:
                    self.miss(f"docs/PROMISES.md: {calls} has no clause {it}")
            yield said, [(it, next((one for one in all_of if any(one in ones for ones in found.values())), None)) for it, all_of in named], [(it, found[it]) for it in wanted]

    def calls_named(self, name):
        owner, _, own = name.rpartition("::")
        return [it for calls in self.calls.values() for it in calls if it.name == own and (not owner or it.owner == owner)]

    def has_clause(self, call, name):
        """Whether a call has a clause of this name, with this field of what it cites; or one without a name that cites this."""
        clause, _, field = name.partition(".")
        for _, text in call.clauses:
            own = re.match(r"(?:requires|ensures)\*?\s*([\w-]*)", text[0])[1]
            cited = [self.find(it, call.imports) for it in cited_in(clause_text(text))]
            definitions = [it for it in cited if isinstance(it, Definition)]
            if own == clause and (not field or any(self.has_field(it, field) for it in definitions)):
                return True
            if not own and clause in [it.name for it in definitions]:
                return True
        return False

    def has_field(self, definition, field):
        """Whether a definition has this field; one that is no record, by the records that it cites."""
        if definition.text[0].startswith("pub record"):
            return any(re.match(rf"\s+(?:pub )?{field}\s*:", line) for line in definition.text)
        module = self.modules[definition.crate, definition.module]
        cited = [self.find(it, module.imports, module) for it in cited_in(definition.text) if it != definition.name]
        return any(self.has_field(it, field) for it in cited if isinstance(it, Definition) and it.text[0].startswith("pub record"))

    def miss(self, text):
        if text not in self.missing:
            self.missing.append(text)

    def read(self, crate):
        folder = f"{TOP}/crates/{crate}"
        root = next(it for it in (f"{folder}/src/lib.rt", f"{folder}/src/main.rt") if os.path.isfile(it))
        self.sentences[crate] = paragraphs([it[3:] for it in read_lines(root) if it.startswith("//!")])
        if not self.sentences[crate]:
            self.miss(f"{crate}: its root has no sentence")
        self.calls[crate], self.types[crate] = [], {}
        modules, names, self.hands_on[crate] = handed_on_by("\n".join(read_lines(root)), self.crates)
        sources = [Source(crate, path) for path in files_in(f"{folder}/src", ".rt")]
        for source in sources:
            if source.path == root or os.path.basename(source.path)[:-3] in modules:
                names.update([it.name for it in source.types] + [it.name for it in source.calls if not it.owner])
        for source in sources:
            for call in source.calls:
                call.is_inner = (call.owner or call.name) not in names
            self.calls[crate] += source.calls
            for one in source.types:
                self.types[crate].setdefault(one.name, one)
        self.sources += sources
        for path in files_in(f"{folder}/specs", ".antt"):
            name = os.path.basename(path)[:-5]
            if name != "Lib":
                self.modules[crate, name] = Module(crate, name, path)
        firsts = [(os.path.basename(it)[:-5], read_lines(it)) for it in files_in(f"{folder}/proofs", ".antt")]
        self.lemmas[crate] = [(name, head_of(lines)) for name, lines in firsts if name != "Lib"]

    def check_module(self, module):
        label = f"{module.crate}/specs/{module.name}"
        if not module.sentence:
            self.miss(f"{label}: no sentence in front")
        self.check_imports(module.imports, label)
        for one in module.definitions:
            if not one.comment:
                self.miss(f"{label}: {one.name} has no comment")
            known = module.parameters | bound_in_definition(one)
            self.cite(one.text, module.imports, known, module, (one.link(), f"{one.crate}.{one.module}: {one.name}"), one)

    def check_source(self, source):
        for call in source.calls:
            if not call.sentence:
                self.miss(f"{call.crate}/{call.file}: {call.anchor()}: a public call without a sentence")
            self.check_imports(call.imports, f"{call.crate}/{call.file}")
            self.cite(call.clauses_text(), call.imports, call.known, None, (call.link(), f"{call.crate}: {call.anchor()}"))
        for one in source.types:
            if re.match("pub (struct|enum|trait)", one.text[0]) and not one.sentence:
                self.miss(f"{one.crate}/{one.file}: {one.name}: a public type without a sentence")

    def find(self, name, imports, module=None):
        """The definition or the type that a name stands for, if the repository has it."""
        if module and name in module.named:
            return module.named[name]
        where = imports.get(name)
        return self.defined(*where) if where and where[0] in self.crates else None

    def defined(self, crate, module, name):
        """The definition of this name in a module, or in one that it hands on; of the code's own names the type."""
        if module == "code":
            return self.types[crate].get(name)
        if module.startswith("declared."):
            of = next((it for it in reversed(module.split(".")) if not it.startswith("The")), "")
            return self.types[crate].get(name) or self.types[crate].get(of)
        other = self.modules.get((crate, module))
        if not other:
            return None
        one = other.named.get(name) or other.named.get(name.split(".")[-1])
        return one or (self.defined(*other.imports[name]) if name in other.handed_on else None)

    def cite(self, lines, imports, known, module, place, own=None):
        """Notes what a text cites, and what of it isn't found."""
        names = cited_in(lines)
        bound = known | bound_in("\n".join(lines))
        for name in sorted(names - {own.name if own else ""}):
            one = self.find(name, imports, module)
            if isinstance(one, Definition):
                one.used_by[place[0]] = place[1]
            elif not one and name not in imports and name not in bound and name not in LANGUAGE:
                self.miss(f"{place[1]}: {name} isn't found")

    def check_imports(self, imports, label):
        for name, where in imports.items():
            # What stands below `contracts` the prover makes of the clauses.
            if name and where[0] in self.crates and where[1] != "code" and not where[1].startswith("contracts.") and not self.defined(*where):
                self.miss(f"{label}: {where[2]} is not in {where[0]}/specs/{where[1]}")


def clause_text(text):
    """A clause without its word and its name."""
    return [re.sub(r"^(requires|ensures)\*?\s*[\w-]*\s*\{", "{", text[0]), *text[1:]]


def handed_on_by(text, crates):
    """What a crate's root hands on: whole modules, names of its own, and names of other crates with these."""
    names, others = set(), []
    own = set(re.findall(r"^(?:pub )?mod (\w+);", text, re.M))
    for path, inner, one in re.findall(r"^pub use ([\w:]+?)(?:::\{([^}]*)\}|::(\w+));", text, re.M):
        listed = [it.strip().split("::")[-1].split(" as ")[-1] for it in (inner or one).split(",") if it.strip()]
        other = path.split("::")[0]
        if other in crates and other not in own:
            others.append((other, listed))
        else:
            names.update(listed)
    return set(re.findall(r"^pub mod (\w+);", text, re.M)), names, others


def files_in(folder, end):
    return [f"{folder}/{it}" for it in sorted(os.listdir(folder)) if it.endswith(end)] if os.path.isdir(folder) else []


def head_of(lines):
    head = []
    for line in lines:
        if not line.startswith("--"):
            break
        head.append(line[2:])
    return paragraphs(head)
