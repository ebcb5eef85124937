#!/usr/bin/env python3
"""Copies jsx_tree without the code's tree into a workspace of its own, so that its laws alone are checked.

A check of jsx_tree goes over the types of the tree and their drops first, and tells of errors in lemma files at its
end. Without these the laws of the grammar take some 90 s of processor time.

    bench/laws_alone.py FOLDER     then, in FOLDER/crates/jsx_tree: rt check

Left out are the files that speak of the code's tree, and all that cite them. jsx_base is copied with what it has in
out/, so run `rt lib` there first.
"""
import os
import re
import shutil
import sys

CODE = re.compile(r"Rattle\.jsx_tree\.specs\.declared\.(tree|program|operator)")
CITED = re.compile(r"Rattle\.jsx_tree\.((?:specs|proofs)(?:\.[A-Z]\w*)+)")
ROOT = """//! The laws of the grammar, without the code's tree.
#![tactic(auto)]

mod one_reading;
mod reading_back;
mod text;

pub use one_reading::one_tree;
pub use reading_back::{
    comments_read_back, laying_says_nothing, layout_reads_back, marks_read_back,
    normal_form_is_normal, parentheses_are_needed, parentheses_fit, parentheses_say_nothing,
    sound_programs_read_back, what_reads_is_sound,
};
pub use text::{DeclareWord, Goal, Ident, LinkForm, LiteralKind, Placement, Text, Word};
"""


def sources(crate):
    """The text of each file of specs/ and proofs/, by its path."""
    found = {}
    for top in ("specs", "proofs"):
        for folder, _, names in os.walk(os.path.join(crate, top)):
            for name in names:
                if name.endswith(".antt"):
                    path = os.path.join(folder, name)
                    with open(path) as file:
                        found[os.path.relpath(path, crate)] = file.read()
    return found


def file_of(module, texts):
    """The file that a cited name stands in, or none."""
    parts = module.split(".")
    while len(parts) > 1:
        path = "/".join(parts) + ".antt"
        if path in texts:
            return path
        parts.pop()
    return None


def left_out(texts):
    """What speaks of the code's tree, and what cites that."""
    cited = {
        path: {file_of(module, texts) for module in CITED.findall(text)} for path, text in texts.items()
    }
    out = {path for path, text in texts.items() if CODE.search(text)}
    while True:
        more = {path for path in texts if path not in out and cited[path] & out}
        if not more:
            return out
        out |= more


def without_mods(path, text, out):
    """A file's text without the `mod` lines of files that are left out."""
    base = os.path.dirname(path) if path.endswith("/Lib.antt") else path[: -len(".antt")]
    return re.sub(
        r"^(?:pub )?mod (\w+)\n",
        lambda line: "" if f"{base}/{line.group(1)}.antt" in out else line.group(0),
        text,
        flags=re.M,
    )


def main():
    here = os.path.join(os.path.dirname(os.path.abspath(__file__)), "..", "crates")
    target = os.path.join(sys.argv[1], "crates")
    crate, copy = os.path.join(here, "jsx_tree"), os.path.join(target, "jsx_tree")
    if not os.path.exists(os.path.join(target, "jsx_base")):
        shutil.copytree(os.path.join(here, "jsx_base"), os.path.join(target, "jsx_base"))
    for top in ("specs", "proofs", "src"):
        shutil.rmtree(os.path.join(copy, top), ignore_errors=True)
    os.makedirs(os.path.join(copy, "src"))
    texts = sources(crate)
    out = left_out(texts)
    for path, text in texts.items():
        if path not in out:
            os.makedirs(os.path.dirname(os.path.join(copy, path)), exist_ok=True)
            with open(os.path.join(copy, path), "w") as file:
                file.write(without_mods(path, text, out))
    for name in ("text.rt", "one_reading.rt", "reading_back.rt"):
        shutil.copy(os.path.join(crate, "src", name), os.path.join(copy, "src", name))
    with open(os.path.join(copy, "src", "lib.rt"), "w") as file:
        file.write(ROOT)
    with open(os.path.join(sys.argv[1], "crates.txt"), "w") as file:
        file.write("jsx_base: unicode_ident unicode_width\njsx_tree: jsx_base unicode_ident\n")
    print("left out:", " ".join(sorted(out)))


main()
