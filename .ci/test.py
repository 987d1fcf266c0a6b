#!/usr/bin/env python3
"""Tries what reads a tree by itself: the checks of .ci/docs are to see faults that are planted here, and no other.

And bench/crates.py is to print a crate as it stands here.
"""
import os
import sys
import tempfile

import calls
import lengths
import samples

sys.dont_write_bytecode = True
sys.path.insert(1, f"{os.path.dirname(os.path.dirname(os.path.realpath(__file__)))}/bench")
import crates  # noqa: E402

SOURCES = {
    "crates.txt": "low: \nmiddle: low\nhigh: low middle\n",
    "crates/low/src/lib.rt": """
impl Node {
    /// Runs.
    pub fn run(&mut self, input: &Input)
        requires room { asks (input.now) }
    {
        self.step(input);
    }

    fn step(&mut self, input: &Input) {
        let text = "other(";
        self.count += 1; // other(1)
    }

    pub fn turn(&mut self) {
        self.count = 0;
    }

    pub fn other(&self) -> u32 {
        self.count
    }
}

pub fn one_law()
    ensures { IsTrue one }
{
    another_law();
}

pub fn another_law()
    ensures { IsTrue one }
{
}
""",
    "crates/middle/src/lib.rt": """
pub struct Held {
    node: Node,
    up: Option<UpNode>,
}

impl UpNode {
    pub fn turn(&mut self) {
        self.node.run(&Input::Tick);
    }
}
""",
    "crates/high/src/main.rt": """
fn main() {
    let node = UpNode::new();
    node.turn();
    help(&[1].map(double));
}

fn double(number: u32) -> u32 {
    number + number
}

fn help(numbers: &[u32]) {
    numbers.len();
}

#[test]
fn it_runs() -> bool {
    true
}
""",
    "docs/dev/ARCHITECTURE.md": "# The map\n\n    high\n      UpNode::turn   a turn   middle\n",
    "docs/ASSURANCE.md": "| `high` | `help`, `double`, `main` (`it_runs`, `low: one_law`) |\n",
    "README.md": "`low: Node::run` runs.\n",
}

# A change of one file, and what is said of it.
PLANTED = [
    ("README.md", "`low: Node::turn` runs.\n", ["README.md:1: `Node::turn`: no body calls this function"]),
    ("README.md", "`Node::other`, which no clause, text and comment calls.\n", ["README.md:1: `Node::other`: no body calls this function"]),
    ("docs/dev/ARCHITECTURE.md", "# The map\n\n      Node::turn   a turn   low\n", ["docs/dev/ARCHITECTURE.md:3: `Node::turn`: no body calls this function"]),
    ("docs/ASSURANCE.md", "| `low` | `run`, `other` |\n", ["docs/ASSURANCE.md:1: `other`: no body calls this function"]),
    ("docs/ASSURANCE.md", "| `low` | `run`, `other` |\n\nNo body calls `Node::other`.\n", []),
    ("docs/ASSURANCE.md", "No body calls `Node::run`.\n", ["docs/ASSURANCE.md: `Node::run` is said to be called by no body, and is, or is no function"]),
]

SHOWN = """# A page

A script

    # ./run.sh solo
    config

    up 1

gives

    one 1   a comment
    ..
    three

## Another

    $ ./run.sh replay < a
    one 1

## And

    $ echo | ./run.sh judge
    one 1

    ./run.sh judge < b

This is `a`:

```
x

y
```

Behind it:
"""
SAMPLES = [
    (5, "./run.sh solo", "# ./run.sh solo\nconfig\n\nup 1\n", "one 1   a comment\n..\nthree"),
    (18, "./run.sh replay < a", "", "one 1"),
    (23, "echo | ./run.sh judge", "", "one 1\n\n./run.sh judge < b"),
]
# What is printed, and the first line that isn't as SAMPLES' first shows it.
PRINTED = [("zero\none 1\ntwo\nthree\n", None), ("one 1\nthree\n", None), ("three\none 1\n", "three"), ("one 1 2\nthree\n", "one 1"), ("", "one 1")]

LONG = "word " * 36
LENGTHS = [
    (f"{'word ' * 35}.\n", 0),
    (f"{LONG}.\n", 1),
    (f"{'word ' * 20}\n{'word ' * 16}.\n", 1),
    (f"{'word ' * 20}. {'Word ' * 20}.\n", 0),
    (f"- {'word ' * 20}\n- {'word ' * 20}\n", 0),
    (f"- {LONG}\n", 1),
    (f"    {LONG}\n", 0),
    (f"```\n{LONG}\n```\n", 0),
    (f"| {'word ' * 30}. {'Word ' * 30} | {'Word ' * 30} |\n", 0),
    (f"| {'word ' * 30}. {'Word ' * 30}. {'Word ' * 30} | {'Word ' * 30}. {'Word ' * 31} |\n", 1),
    (f"| {LONG} |\n", 1),
    (f"{'word ' * 30} `a b c d e f g`, `x.y z`.\n", 0),
]

CRATE = {
    "crates.txt": "# words\nlow:\nshelf may_wait=2: low\n",
    "crates/low/src/lib.rt": "//! Low. It is so.\n#![tactic(auto)]\n",
    "crates/shelf/src/lib.rt": """//! A shelf
//! of books: each at its place. More.
#![tactic(auto)]

mod books;
mod lent;
pub mod laws;

pub use books::{Book, Reads};
pub use lent::lend;

/// How many fit. No more.
pub const MOST: u8 = 9;
""",
    "crates/shelf/src/books.rt": """
/// A book (a thin one). Not shown.
#[derive(Drop)]
pub struct Book<P> {
    pub(crate) pages: Vec<P>,
}

impl<P: Drop> Book<P> {
    /// How many pages
    /// it has. Never 0.
    #[inline(always)]
    pub fn len(&self) -> usize {
        self.pages.len()
    }

    pub(crate) fn inner(&self) {}
}

impl<P> Model for Book<P> {
    pub fn view() {}
}

/// Who reads.
pub trait Reads: Drop {
    /// Reads a page.
    fn read(&mut self);
}

/// Hidden.
pub(crate) struct Inner;
""",
    "crates/shelf/src/lent/mod.rt": "/// Lends it.\npub fn lend() {}\n\npub fn kept_back() {}\n",
    "crates/shelf/src/laws.rt": "/// A law.\npub fn stands()\n    ensures { IsTrue one }\n{\n}\n",
    "crates/shelf/must-fail/a_page_is_lost.edit": "file: src/books.rt\nold: len\nnew: 0\n",
}

PAGE = """shelf:  A shelf of books: each at its place.
  stands on  low
  Book  A book (a thin one).
    len  How many pages it has.
  MOST  How many fit.
  Reads  Who reads.
    read  Reads a page.
  lend  Lends it.
  stands  A law.
  must fail:  a page is lost (src/books.rt)"""


def in_tree(files, ask):
    with tempfile.TemporaryDirectory() as root:
        for name, content in files.items():
            os.makedirs(os.path.dirname(f"{root}/{name}"), exist_ok=True)
            with open(f"{root}/{name}", "w", encoding="utf-8") as file:
                file.write(content)
        return ask(root)


def faults_with(path, text):
    return in_tree({**SOURCES, path: text}, calls.faults_of)


def try_samples():
    found = list(samples.samples_of(SHOWN))
    assert found == SAMPLES, f"samples: {found}"
    for printed, line in PRINTED:
        found = samples.lacking(SAMPLES[0][3], printed)
        assert found == line, f"lacking, {printed!r}: {found}"
    assert samples.lacking("a\nb", "a\nc\na\nb\n") is None and samples.lacking("a\nb", "a\nc\nb\n") == "b"
    assert list(samples.prints_of(SHOWN, lambda file: "x\n\ny\n")) == [("a", True)]
    assert list(samples.prints_of(SHOWN, lambda file: "x\ny\n")) == [("a", False)]


def main():
    try_samples()
    for path, text, said in [("README.md", SOURCES["README.md"], []), *PLANTED]:
        found = faults_with(path, text)
        assert found == said, f"calls, {text!r}: {found}"
    for text, many in LENGTHS:
        found = list(lengths.too_long(text))
        assert len(found) == many, f"lengths, {text!r}: {found}"
    for document, many in (("README.md", 25_000), ("docs/A.md", 25_000), ("docs/dev/A.md", 25_000), ("bench/README.md", 0)):
        counts = in_tree({document: "word\n" * 25_000}, lambda root, it=document: lengths.words_of(root, [it]))
        assert sum(counts.values()) == many and not lengths.too_many(counts), f"words, {document}: {counts}"
    assert lengths.too_many({"README.md": 1, "docs/A.md": 25_000}), "words: one too many"
    for name, page in (("low", "low:  Low."), ("shelf", PAGE)):
        found = in_tree(CRATE, lambda root, it=name: crates.page_of(root, it, crates.crates_of(root)[it]))
        assert found == page, f"crates, {name}: {found}"


main()
