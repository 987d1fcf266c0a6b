"""Each function that README, ARCHITECTURE or ASSURANCE names runs: some body calls it.

`faults_of(root)` gives a line for each that no body calls. A law (a function that does nothing) is exempt, and so are
`main`, tests, and what a line of ASSURANCE that begins with "No body calls" lists, as long as that is so. A method is
its type's own: where other types have one of its name, a call counts for the type that its receiver is declared to
have, and for all of them where that can't be seen.
"""
import os
import re

DOCUMENTS = ("README.md", "docs/dev/ARCHITECTURE.md", "docs/ASSURANCE.md")
CLAUSE = re.compile(r"\b(?:requires|ensures|ghost)\b[^{};]*\{")
WORD = r"[a-z_][a-z0-9_]*"


def text_of(path):
    with open(path, encoding="utf-8") as it:
        return it.read()


def end_of(text, at):
    """Where the brace that opens at `at` is closed."""
    depth = 0
    for found in re.compile(r"[{}]").finditer(text, at):
        depth += 1 if found[0] == "{" else -1
        if depth == 0:
            return found.end()
    return len(text)


def bare(text):
    """A source without comments, texts and clauses."""
    text = re.sub(r'//[^\n]*|b?"(?:\\.|[^"\\])*"|\'(?:\\.|[^\'\\])\'', "", text)
    found = CLAUSE.search(text)
    while found:
        text = text[: found.start()] + text[end_of(text, found.end() - 1) :]
        found = CLAUSE.search(text, found.start())
    return text


class Function:
    """A function with a body: its crate, the types (and the trait) that it is of, its head and its body."""

    def __init__(self, crate, owners, name, head, body, is_test):
        self.crate, self.owners, self.name, self.head, self.body, self.is_test = crate, owners, name, head, body, is_test
        self.calls = set(re.findall(rf"\b({WORD})(?:::<[^()]*>)?\(", body)) | set(re.findall(rf"[(,:]\s*({WORD})\s*[,)]", body))

    def is_law(self):
        """Whether it does nothing, or calls others that do nothing."""
        return "->" not in self.head and bool(re.fullmatch(rf"\s*(?:(?:let _ = [^;]*|[\w:]+\([^()]*\));\s*)*", self.body[1:-1]))

    def type_of(self, name, fields):
        """What the variable, or the field, of this name is declared as: names of types and of traits."""
        if name == "self":
            return self.owners
        found = re.search(rf"\b{name}: ([^,()]*(?:\([^()]*\))?[^,()]*)", self.head) or re.search(rf"\blet (?:mut )?{name}(?:: | = )([^;]*)", self.body)
        words = set(re.findall(r"\b[A-Z]\w*", found[1])) if found else fields.get((self.crate, name), set())
        for it in list(words):
            bound = re.search(rf"\b{it}: ([^,>]*)", self.head)
            words |= set(re.findall(r"\b[A-Z]\w*", bound[1])) if bound else set()
        return words


def functions_in(crate, text):
    blocks = []
    for found in re.finditer(r"\b(?:impl|trait)\b([^{;]*)\{", text):
        named = re.sub(r"<[^<>]*>", "", re.sub(r"<[^<>]*>", "", found[1]))
        blocks.append((found.end(), end_of(text, found.end() - 1), set(re.findall(r"\b[A-Z]\w*", named.split(" where ")[0].split(":")[0]))))
    for found in re.finditer(rf"\bfn ({WORD})([^{{;]*)([{{;])", text):
        owners = [it for start, end, it in blocks if start <= found.start() < end]
        body = text[found.end() - 1 : end_of(text, found.end() - 1)] if found[3] == "{" else "{}"
        head = found[2] if found[3] == "{" else f"{found[2]}->"
        is_test = text[: found.start()].rstrip().endswith("#[test]")
        yield Function(crate, owners[-1] if owners else set(), found[1], head, body, is_test)


class Program:
    """All functions of the tree, and what calls what."""

    def __init__(self, root):
        self.functions, self.fields = [], {}
        self.below = {it[1]: set(it[2].split()) for it in re.finditer(r"(?m)^([a-z]\w*):(.*)", text_of(f"{root}/crates.txt"))}
        for crate in sorted(os.listdir(f"{root}/crates")):
            for at, _, names in os.walk(f"{root}/crates/{crate}/src"):
                for text in [bare(text_of(f"{at}/{it}")) for it in names if it.endswith(".rt")]:
                    self.functions += functions_in(crate, text)
                    for field, kind in re.findall(r"(?m)^\s+(?:pub(?:\([a-z]+\))? )?([a-z_]+): ([^={}\n]*),$", text):
                        self.fields.setdefault((crate, field), set()).update(re.findall(r"\b[A-Z]\w*", kind))
        self.named = {}
        for it in self.functions:
            self.named.setdefault(it.name, []).append(it)
        self.callers = {}
        for it in self.functions:
            for name in it.calls:
                self.callers.setdefault(name, []).append(it)

    def calls_of(self, caller, name, owners):
        """Whether a body calls the function of this name that one of these types has (or none, where `owners` is empty)."""
        others = set().union(*(it.owners for it in self.named[name])) - owners
        for found in re.finditer(rf"(?:(\b\w+|[)\]?>])\s*(\.|::)\s*)?\b{name}\b", caller.body):
            before, mark = found[1], found[2]
            if mark == "::" and before and before[0].isupper():
                kinds = caller.owners if before == "Self" else {before}
            elif mark == ".":
                kinds = caller.type_of(before, self.fields) if before.isidentifier() else set()
            else:
                kinds = set()
                if owners and not (mark == "::" and before in ("crate", "self", "super")):
                    continue
            if kinds & owners or not kinds & others:
                return True
        return False

    def may_call(self, caller, it):
        """Whether the one stands in a crate that uses the other's, or in the same one, and isn't itself."""
        return (caller.crate == it.crate or it.crate in self.below.get(caller.crate, ())) and (caller.name, caller.owners) != (it.name, it.owners)

    def runs(self, name, owner=None, crate=None):
        """Whether some body calls it; None where it is no function, a law, a test or `main`."""
        meant = [it for it in self.named.get(name, []) if (owner is None or owner in it.owners) and (crate is None or it.crate == crate)]
        if not meant or name == "main" or all(it.is_law() or it.is_test for it in meant):
            return None
        return any(self.may_call(caller, it) and self.calls_of(caller, name, it.owners) for it in meant for caller in self.callers.get(name, []))


def names_in(text, crates):
    """The functions that a document may name, with the type and the crate where it says these."""
    row = None
    for number, line in enumerate(text.split("\n"), 1):
        cells = re.findall(r"`(\w+)", line.split("|")[1]) if line.startswith("|") else []
        row = [it for it in cells if it in crates]
        is_code = re.match(r" {4}", line)
        spans = [line] if is_code else re.findall(r"`([^`]*)`", line)
        for span in spans:
            of, _, rest = span.partition(": ")
            crate = of if of in crates and rest else None
            for owner, name in re.findall(rf"\b([A-Za-z]\w*)::({WORD})\b", span):
                yield (number, name, None, owner) if owner in crates else (number, name, owner, crate)
            if is_code:
                found = re.match(rf"\s+({WORD})(?:, ({WORD}))?(?:  |$)", line)
                last = line.split("  ")[-1].split(", ")
                for name in found.groups() if found else ():
                    if name and name not in crates and last[0] in crates:
                        yield number, name, None, last[0]
            elif crate and re.fullmatch(WORD, rest):
                yield number, rest, None, crate
            elif re.fullmatch(WORD, span) and span not in crates:
                yield from ((number, span, None, it) for it in row or [None])


def faults_of(root):
    program, faults = Program(root), []
    crates = set(os.listdir(f"{root}/crates"))
    texts = {it: text_of(f"{root}/{it}") for it in DOCUMENTS}
    spared = re.findall(r"`([^`]*)`", "".join(re.findall(r"(?m)^No body calls (.*)", texts["docs/ASSURANCE.md"])))
    for it in spared:
        owner, _, name = it.rpartition("::")
        if program.runs(name, owner or None) is not False:
            faults.append(f"docs/ASSURANCE.md: `{it}` is said to be called by no body, and is, or is no function")
    for document, text in texts.items():
        said = {}
        for number, name, owner, crate in names_in(text, crates):
            said.setdefault((number, name, owner), []).append(program.runs(name, owner, crate))
        for (number, name, owner), answers in said.items():
            if False in answers and True not in answers and name not in [it.rpartition("::")[2] for it in spared]:
                faults.append(f"{document}:{number}: `{owner + '::' if owner else ''}{name}`: no body calls this function")
    return faults
