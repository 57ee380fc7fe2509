#!/usr/bin/env python3
"""Writes the sources that the bench program runs as plain Rust: the same code without contracts, as one crate whose main is main.rs beside this file.

    bench/as_rust.py DIR && rustc --edition 2024 -O -o DIR/bench DIR/main.rs && DIR/bench
"""
import os
import re
import sys

HERE = os.path.dirname(os.path.abspath(__file__))
SOURCES = os.path.join(HERE, "..", "crates")
# each crate after those that it uses
CRATES = ["eff", "fault", "sheet", "table", "shape", "claim", "recipe", "host", "step", "machine", "runs"]
# files with tests and theorems only
SKIPPED = ["tests", "laws", "theorem"]


def files(crate):
    """The names and texts of a crate's source files."""
    folder = os.path.join(SOURCES, crate, "src")
    for file in sorted(os.listdir(folder)):
        name = file.removesuffix(".rt")
        if name not in SKIPPED:
            with open(os.path.join(folder, file)) as text:
                yield name, text.read()


def plain(line, crate, below):
    """A line as Rust has it; none where it has no such line."""
    text = line.strip()
    if re.match(r"(//!|ghost |#!\[tactic|#\[cycle|#\[cfg\(test\)\])", text) or re.match(r"(pub )?mod (%s);" % "|".join(SKIPPED), text):
        return None
    if text.startswith("#[derive("):
        traits = [t for t in text[len("#[derive("):-2].split(", ") if t != "Drop"]
        return "#[derive(%s)]" % ", ".join(traits)
    # Rust has no bound for what may be dropped, and one type of formatter
    line = re.sub(r"(\w+): Drop\b", r"\1", line)
    line = line.replace("fmt<W: fmt::Write>", "fmt").replace("fmt::Formatter<W>", "fmt::Formatter<'_>")
    line = re.sub(r"(?<![\w:])crate::", "crate::%s::" % crate, line)
    for other in below:
        line = re.sub(r"(?<![\w:.])%s::" % other, "crate::%s::" % other, line)
    return line


def translated(text, crate, below):
    """A file's text as Rust has it. The last clause of a trait's method has its semicolon."""
    lines = []
    for line in text.split("\n"):
        if re.match(r"\s*(requires|ensures)\b", line):
            if line.endswith("};"):
                lines[-1] += ";"
            continue
        ghost = line.strip().startswith("ghost ")
        line = plain(line, crate, below)
        if line is not None:
            lines.append(line)
        while ghost and lines and lines[-1].strip().startswith("///"):
            lines.pop()
    return "\n".join(lines)


def main(target):
    for at, crate in enumerate(CRATES):
        own = {name for name, _ in files(crate)}
        below = [other for other in CRATES[:at] if other not in own]
        os.makedirs(os.path.join(target, crate), exist_ok=True)
        for name, text in files(crate):
            file = "mod.rs" if name == "lib" else name + ".rs"
            with open(os.path.join(target, crate, file), "w") as out:
                out.write(translated(text, crate, below))
    with open(os.path.join(HERE, "main.rs")) as text, open(os.path.join(target, "main.rs"), "w") as out:
        out.write("#![allow(warnings)]\n" + "".join("mod %s;\n" % crate for crate in CRATES) + text.read())


main(sys.argv[1])
