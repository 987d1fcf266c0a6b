"""Samples of documents: what is said to be printed is printed.

`samples_of(text)` gives each sample of a document: its line, its command, its script and the lines of its output that
are shown. A block that begins with `# ./run.sh ..` is a script for that command, and the next block under its heading,
if that is no script and no command, is of its output. In a block that begins with `$ ./run.sh ..`, or with a pipe into that,
the output is behind that line. `..` stands for lines that are left out; what stands behind three spaces is a comment.

`prints_of(text, text_of)` gives each file that a document says it prints ("This is `FILE`"), and whether it does, in the next fence.

`lacking(shown, printed)` gives the first line that isn't printed where it is shown, or None.
"""
import re


def blocks_of(text):
    """The blocks of code, each with its first line's number, and headings as None."""
    number, block, in_fence = 0, [], False
    for at, line in enumerate([*text.split("\n"), "#"], 1):
        is_mark = line.startswith("```")
        in_fence ^= is_mark
        if in_fence or is_mark or re.match(r" {4}", line) or block and not line:
            if not is_mark and (block or line):
                number, block = number if block else at, [*block, line if in_fence else line[4:]]
            continue
        if block:
            yield number, "\n".join(block).rstrip()
            block = []
        if line.startswith("#"):
            yield at, None


def is_command(block):
    return re.match(r"(\$ |# )?(.*\| )?\./run\.sh ", block)


def samples_of(text):
    blocks = list(blocks_of(text))
    for (number, block), (_, behind) in zip(blocks, [*blocks[1:], (0, None)]):
        first, _, rest = (block or "").partition("\n")
        if re.match(r"\$ (.*\| )?\./run\.sh ", first):
            yield number, first[2:], "", rest
        elif first.startswith("# ./run.sh "):
            yield number, first[2:], f"{block}\n", "" if behind is None or is_command(behind) else behind


def lines_in(text):
    return [it.split("   ")[0].strip() if it.strip() else "" for it in text.strip().split("\n")]


def lacking(shown, printed):
    printed, at = [it.strip() for it in printed.split("\n")], 0
    for part in re.split(r"(?m)^\.\.$", "\n".join(lines_in(shown))):
        wanted = [it for it in part.split("\n") if it]
        places = [it for it in range(at, len(printed) - len(wanted) + 1) if printed[it : it + len(wanted)] == wanted]
        if not places:
            # (the longest front that is printed tells which line is wrong)
            fronts = [many for many in range(len(wanted)) if any(printed[it : it + many] == wanted[:many] for it in range(at, len(printed)))]
            return wanted[fronts[-1]]
        at = places[0] + len(wanted)
    return None


def prints_of(text, text_of):
    for found in re.finditer(r"This is `([^`]+)`", text):
        fence = re.search(r"\n```\n(.*?)\n```\n", text[found.end() :], re.DOTALL)
        yield found[1], bool(fence) and fence[1].rstrip() == text_of(found[1]).rstrip()
