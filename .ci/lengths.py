"""Documents are short of breath: a sentence has at most 35 words, a row of a table at most 150.

`faults_of(root, documents)` gives a line for each longer one. Blocks of code don't count, and of a table each cell has
sentences of its own.

And there are few of them: README and what stands in docs/ have at most 25,000 words, as `wc -w` counts. `words_of` gives
how many each has, `too_many` a line where they are more.
"""
import re

SENTENCE, ROW, MOST_WORDS = 35, 150, 25_000


def words(text):
    return [it for it in text.split() if re.search(r"\w", it)]


def sentences(text):
    """A text cut behind its full stops, where a new sentence or nothing follows."""
    # (what stands between backticks is a word, whatever it has)
    text = re.sub(r"`[^`]*`", "`x`", text)
    text = re.sub(r"\b(e\.g|i\.e)\.", r"\1", text)
    return re.split(r"[.!?][)\"'*_`]*\s+(?=[^a-z])", text)


def parts_of(text):
    """The paragraphs, items and rows of a document, each with its first line's number and whether it is a row."""
    number, part, in_fence = 0, [], False
    for at, line in enumerate([*text.split("\n"), ""], 1):
        if line.startswith("```"):
            in_fence = not in_fence
        is_code = in_fence or line.startswith("```") or re.match(r" {4}(?!\s*([-*]|\d+\.) )", line) and not part
        begins = re.match(r"\s*([-*]|\d+\.) |#|\||!\[", line)
        if part and (begins or is_code or not line.strip()):
            yield number, " ".join(part), part[0].startswith("|")
            part = []
        if line.strip() and not is_code:
            number, part = number if part else at, [*part, line.strip()]


def too_long(text):
    """What is too long in a document, each with its line."""
    for number, part, is_row in parts_of(text):
        if is_row and len(words(part.replace("|", " "))) > ROW:
            yield number, f"a row has {len(words(part.replace('|', ' ')))} words, and not {ROW} at most"
        for cell in part.strip("|").split(" | ") if is_row else [re.sub(r"^([-*#]+|\d+\.) ", "", part)]:
            for it in sentences(cell):
                if len(words(it)) > SENTENCE:
                    yield number, f"a sentence has {len(words(it))} words, and not {SENTENCE} at most: {it[:60]}.."


def faults_of(root, documents):
    faults = []
    for document in documents:
        with open(f"{root}/{document}", encoding="utf-8") as it:
            faults += [f"{document}:{number}: {what}" for number, what in too_long(it.read())]
    return faults


def words_of(root, documents):
    """How many words README and each page of docs/ have."""
    counts = {}
    for document in documents:
        if re.fullmatch(r"README\.md|docs/(dev/)?[^/]+\.md", document):
            with open(f"{root}/{document}", encoding="utf-8") as it:
                counts[document] = len(it.read().split())
    return counts


def too_many(counts):
    many = sum(counts.values())
    return [f"docs: {many:,} words in README and docs/, and not {MOST_WORDS:,} at most"] if many > MOST_WORDS else []
