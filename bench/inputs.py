#!/usr/bin/env python3
"""Inputs whose reading, checking and proving are measured; each is written to standard output.

usage: inputs.py copies N          the source of `vcc gen N`: N copies of a lock with its workers, and of a counter
       inputs.py function N        a source of one function of N statements: stores, reads and sums, one condition and more for each
       inputs.py certificate MIB   the text of a certificate of at most so many MiB: the blocks of examples/lock.cert again and again
       inputs.py linear LITERALS   the text of a certificate of examples/first.c that refutes nothing: a million literals in steps `linear` of so many over
                                   sums of 4 terms, or none at all for 0
       inputs.py every VERSION     the text of a certificate of this version in which every kind of term and every rule stands; it proves nothing
"""
import re
import sys
from pathlib import Path

TOP = Path(__file__).resolve().parent.parent


def copies(count):
    """The text stands in the program's source; `@` is the number of a copy."""
    text = (TOP / "crates/generated_source/src/source.rt").read_text()
    copy = re.search(r'^const COPY: &\[u8\] = br"(.*?)^";$', text, re.S | re.M)[1]
    yield "#include <vcc.h>\n"
    for number in range(1, count + 1):
        yield copy.replace("@", str(number))
    yield "void main() {}\n"


def function(count):
    """A store, a read and a sum in turn, all within the range of `int`."""
    yield "struct Cell {\n  int v;\n  _(invariant v >= 0)\n};\n"
    yield "void f(struct Cell *p)\n  _(maintains \\wrapped(p))\n  _(writes p)\n{\n  int x = 0;\n  _(unwrap p)\n"
    for place in range(count):
        yield (f"  p->v = {place % 1000};\n", "  x = p->v;\n", "  x = x + 1;\n")[place % 3]
    yield "  p->v = 0;\n  _(wrap p)\n}\nvoid main() {}\n"


def certificate(mebibytes):
    """As many blocks as fit; a block is a line `condition`, and the lines up to the next or the end."""
    text = (TOP / "examples/lock.cert").read_text()
    blocks = re.findall(r"^condition .*\n(?:[ts] .*\n)*", text, re.M)
    room = mebibytes * 1024 * 1024 - len("vcc-cert 1\nconditions 20000\nend\n")
    lines, size = [], 0
    while size + len(blocks[len(lines) % len(blocks)]) <= room:
        lines.append(blocks[len(lines) % len(blocks)])
        size += len(lines[-1])
    yield f"vcc-cert 1\nconditions {len(lines)}\n"
    yield from lines
    yield "end\n"


def linear(literals):
    """A ring of sums of 4 constants, each at most the next and the last below the first, denied in each step; first.c's condition has 13 terms."""
    width, terms = 4, []

    def term(text):
        terms.append(f"t {text}\n")
        return 12 + len(terms)

    def total(place):
        units = [term(f"ci {1000 + place * width + unit}") for unit in range(width)]
        left = units[0]
        for unit in units[1:]:
            left = term(f"add {left} {unit}")
        return left

    count = 0
    if literals:
        sums = [total(place) for place in range(literals)]
        denied = [term(f"le {left} {right}") for left, right in zip(sums, sums[1:])]
        one = term("int 1")
        more = term(f"add {sums[-1]} {one}")
        denied.append(term(f"le {more} {sums[0]}"))
        step = f"s linear{' 1' * literals} ={''.join(f' -{number}' for number in denied)}\n"
        count = 1_000_000 // literals
    yield f"vcc-cert 1\nconditions 1\ncondition {len(terms)} {count} {count * literals}\n"
    yield from terms
    for _ in range(count):
        yield step
    yield "end\n"


def derivation(name, names, rules):
    """A lemma or block of every kind of term and of these rules, with the least and the greatest number that fits."""
    least, greatest = -(2**127), 2**127 - 1
    indexed = re.findall(r"Kind::(\w+)", re.search(r"fn has_index.*?=> true", names, re.S)[0])
    terms = [
        f"t {word}{index}{arguments}\n"
        for kind, word in re.findall(r'Kind::(\w+) => b"(\w+)"', names)
        for index in ((f" {least}", f" {greatest}") if kind in indexed else ("",))
        for arguments in ("", " 0 4294967295")
    ]
    steps = [
        f"s {rule}{detail} ={clause}\n"
        for rule in rules
        for detail in ("", f" -1 0 {least} {greatest}")
        for clause in ("", " +0 -4294967295")
    ]
    literals = sum(len(step.partition("=")[2].split()) for step in steps)
    yield f"{name} {len(terms)} {len(steps)} {literals}\n"
    yield from terms
    yield from steps


def every(version):
    """Version 1 has no lemmas, and a lemma has no step `root`."""
    names = (TOP / "crates/cert_format/src/names.rt").read_text()
    rules = re.findall(r'RuleName::\w+ => b"(\w+)"', names)
    yield f"vcc-cert {version}\n"
    if version == 2:
        yield "lemmas 1\n"
        yield from derivation("lemma", names, [rule for rule in rules if rule != "root"])
    yield "conditions 2\ncondition 0 0 0\n"
    yield from derivation("condition", names, [rule for rule in rules if version == 2 or rule != "lemma"])
    yield "end\n"


KINDS = {"copies": copies, "function": function, "certificate": certificate, "linear": linear, "every": every}

if len(sys.argv) != 3 or sys.argv[1] not in KINDS or not sys.argv[2].isdecimal():
    sys.exit(__doc__)
sys.stdout.writelines(KINDS[sys.argv[1]](int(sys.argv[2])))
