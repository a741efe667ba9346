#!/usr/bin/env python3
"""Lists places in src/ that are written in an older form, by pattern. At the repository's top: python3 tools/forms.py [-l]"""
import glob
import re
import sys

# Each pattern, by its point and name. A line that it finds is a place to read; docs/DESIGN-PASS.md says which are in an older form.
PATTERNS = [
    ("1", "enums", r"^\s*(pub(\(crate\))? )?enum "),
    ("1", "flags in structs", r"^\s*(pub )?[a-z_]+: bool,$"),
    ("1", "numbers for kinds", r">> 30|\bkind(: u\d+| ==| >=| \*)"),
    ("1", "numbers for none", r"\bNOWHERE\b|\bEND\b|cursor > 0|heads: \[u|heads = \[0|links: &?(mut )?\[u|\(\w+ \+ 1\) as u16"),
    ("1", "numbers of refusals", r"fn number\(|Refused\(u8\)"),
    ("2", "bits by hand", r">> \(\w+ % 32\)|1 << \(\w+ % 32\)"),
    ("2", "one hash each", r"fn hash_(words|bytes)"),
    ("2", "the same twice", r"struct Slot\b|fn argument_count|fn count_(calls|words)|fn (worklist|difference)_(bits|chains)|fn under_|fn (message|unreadable)\("),
    ("3", "loops over numbers", r"for \w+ in [^ ]*\.\."),
    ("3", "loops that step a number", r"^\s*while "),
    ("4", "equality by number", r" as u8 ==| as usize =="),
    ("4", "one case against the rest", r"=> (true|false),$"),
    ("4", "a case handed on", r"(Err\(_\)|None) => (None|Err\(|0|false)|Ok\(\(\)\) => Ok\(\(\)\)|Some\(\w+\) => Some\(|Ok\(\w+\) => \w+,$|Ok\(\w+\) => Ok\("),
    ("4", "impls by hand", r"^impl.* (From<.*>|TryFrom<.*>|fmt::Display|PartialEq|Eq|Ord|Clone|Default) for "),
    ("5", "row or object below 256", r"requires \w* ?\{ \(?\w+ < 256"),
    ("5", "lengths of lent memory", r"requires .*(2048|20480|22528|256|4104) ?(≤|≡) length|requires .*length [\w.]+ ≡ (256|2048|20480)"),
    ("5", "an invariant in a clause", r"(requires|ensures) \w* ?\{ (E\.sound|sound|InStep|Sound|Linked|LayerSound|Solved|Prepared)\b"),
    ("6", "arrays in structs", r"^\s*(pub )?\w+: \[[A-Za-z]\w*; \d+\],$"),
    ("7", "options of a closure's place", r"fn (worklist|difference)_(bits|chains)|fn under_|if let Some\(p\) = self\.position"),
]


def main():
    texts = []
    for name in sorted(glob.glob("crates/*/src/**/*.rt", recursive=True)):
        with open(name, encoding="utf-8") as text:
            texts.append((name, text.read().split("\n")))
    for point, title, pattern in PATTERNS:
        found = [
            (name, number, line.strip())
            for name, lines in texts
            for number, line in enumerate(lines, 1)
            if re.search(pattern, line) and not line.strip().startswith("//")
        ]
        print(f"{point}  {title}: {len(found)}")
        if "-l" in sys.argv[1:]:
            for name, number, line in found:
                print(f"     {name}:{number}: {line}")
    parameters = 0
    for name, lines in texts:
        for m in re.finditer(r"fn (\w+)(<[^{(]*>)?\(([^)]*)\)", "\n".join(lines)):
            if len([p for p in m.group(3).split(",") if p.strip()]) >= 5:
                parameters += 1
                if "-l" in sys.argv[1:]:
                    print(f"     {name}: {m.group(1)}")
    print(f"5  functions of five parameters or more: {parameters}")
    kept = sum(line.strip().startswith("// Stays: ") for _, lines in texts for line in lines)
    print(f"   lines that say why a place stays: {kept}")


main()
