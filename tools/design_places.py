#!/usr/bin/env python3
"""Counts the places of each point of docs/DESIGN-PASS.md in crates/*/src.

    tools/design_places.py [COMMIT] [--list]

With a commit it reads the files as they stand there, else those of the working tree. `--list` prints each place.
"""
import re
import subprocess
import sys

# Each row: the point, what is counted, and the pattern that a place has (over whole files, several lines allowed).
ROWS = [
    ("1", "variants of own enums that say 'nothing'", r"^ +(None|Nothing|Silent|Skipped)(,| \{|\()"),
    ("1", "flags among parameters and fields", r"^ +(pub )?[a-z_]+: bool,"),
    ("1", "numbers that stand for a kind or a refusal", r"^ +(pub )?(first|second|number|kind|code): (u8|Option<u8>),"),
    ("1", "refusals wrapped by hand", r"Err\(Fault::Association\("),
    ("1", "a missing field refused by hand", r"let Some\(\w+\) = (self|fields)\.next\(\) else \{\s+return Err\(Refusal::BadLine\);"),
    ("2", "functions once for each algorithm, first or second", r"match (\w+\.)?algorithm \{"),
    ("2", "functions once for each width or kind of a field", r"pub fn (number|short|byte|algorithm|sequence)\(&mut self\)|fn sequence\(&mut self\)"),
    ("2", "tests of a slot, once for each question", r"fn slot_(at|uses|takes)\("),
    ("2", "a call as into an area of a given length", r"fn \w+_within(<S: Suite>|<First: Integrity, Second: Integrity>)?\("),
    ("2", "words read or written in one byte order", r"from_[bl]e_bytes\(\[block\[|word\.to_[bl]e_bytes\(\)"),
    ("3", "a loop over a range of indices", r"for \w+ in [^{\n]*\.\."),
    ("3", "a loop that counts beside its items", r"for \(\w+, \w+\) in [^{]*?\.enumerate\(\)"),
    ("4", "a number or a name of an enum by a table", r"fn (number|name|phase)\((self|&self)\)[^{]*\{[^}]*\}\s*\{\s+match"),
    ("4", "equality by hand", r"fn (is|is_text|same)\(|\.0 == \w+\.0$"),
    ("4", "conversion by hand", r"^fn (algorithm_by|number_of|cover_of|carrier_of|user_failure_carrier)\(|pub fn read_name\("),
    ("5", "the clause `housed`", r"ensures housed "),
    ("5", "the clause `stays`", r"ensures stays "),
    ("5", "two type parameters that travel together", r"First: Integrity, Second: Integrity"),
    ("5", "algorithm, key and SPI beside each other", r"algorithm: Algorithm,\s+ik: (&Ik|Ik),\s+spi: u32,"),
    ("5", "service, subscriber, taken and address beside each other", r"service: Service,\s+subscriber: u16,\s+taken: bool,\s+address: Address,"),
    ("5", "the clause `rest` of a field's reader", r"ensures rest \{"),
    ("5", "an address beside the port of its pair", r"address: Address, port: u16|Option<\(Address, u16\)>"),
    ("5", "a reader seen as the list of its fields", r"fields_of (self|fields)\.(old|new)"),
    ("5", "the heap handed on beside the fields", r"heap: Global,\s*([^(){}]*,\s*)?fields: &mut Fields|&mut self, heap: Global"),
    ("5", "a segment and the area that it goes into", r"segment: &\[u8\],\s+(area: u32,\s+)?out: &mut \["),
    ("5", "a right length asked of the packet's reader", r"saturating_sub\(TA(G_LEN|IL)\)|byte_at\(b, "),
    ("6", "a fixed buffer with a count beside it", r"= \[0; LONGEST_PACKET\];"),
    ("6", "an area by its length beside a fixed buffer", r"area: u32,\s+out: &mut \[u8; 1424\]"),
    ("7", "a chain of tests of a word", r"(?<!else )if (is_text\(|\w+ == b\")"),
    ("7", "a call's answer or refusal told by a match of its own", r"Err\(fault\) => (\{ )?(Ok\()?(refused\(|\w+::Refused)"),
]


def sources(commit):
    if commit:
        names = subprocess.run(["git", "ls-tree", "-r", "--name-only", commit], capture_output=True, text=True, check=True).stdout.split("\n")
    else:
        names = subprocess.run(["git", "ls-files", "-co", "--exclude-standard"], capture_output=True, text=True, check=True).stdout.split("\n")
    for name in sorted(names):
        if re.fullmatch(r"crates/\w+/src/\w+\.rt", name):
            if commit:
                yield name, subprocess.run(["git", "show", f"{commit}:{name}"], capture_output=True, text=True, check=True).stdout
            else:
                try:
                    yield name, open(name, encoding="utf-8").read()
                except FileNotFoundError:
                    pass


def main():
    arguments = [a for a in sys.argv[1:] if a != "--list"]
    files = list(sources(arguments[0] if arguments else None))
    for point, what, pattern in ROWS:
        places = []
        for name, text in files:
            for found in re.finditer(pattern, text, re.MULTILINE):
                line = text.count("\n", 0, found.start()) + 1
                places.append(f"{name}:{line}")
        tell(point, what, places)
    tell("2", "types declared in two crates", in_two_crates(files))
    tell("2", "functions of one name in the two programs that answer scripts", in_both(files))


def in_two_crates(files):
    """The declarations of a type that stands in another crate too, where the two say the same."""
    found = [(word, name) for word in ("Algorithm", "Tally") for name, text in files if re.search(rf"^(pub )?(struct|enum) {word} ", text, re.MULTILINE)]
    return [name for word, name in found if sum(other == word for other, _ in found) > 1]


def in_both(files):
    """The functions that stand under one name in both programs that answer scripts, `main` left out."""
    named = {}
    for name, text in files:
        program = name.split("/")[1]
        if program in ("replay", "replay_calls"):
            for found in re.finditer(r"^(?:pub )?fn (\w+)", text, re.MULTILINE):
                named.setdefault(found[1], {}).setdefault(program, name)
    return [f"{there['replay']} {word}" for word, there in sorted(named.items()) if len(there) == 2 and word != "main"]


def tell(point, what, places):
    print(f"{point}  {len(places):3}  {what}")
    if "--list" in sys.argv:
        for place in places:
            print(f"          {place}")


main()
