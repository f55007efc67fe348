#!/usr/bin/env python3
"""Counts the places of docs/DESIGN-PASS.md in src/: design_places.py [FOLDER] [--list]. FOLDER is a checkout (by itself this one); --list prints each place."""
import glob
import re
import sys

WORDS = [a for a in sys.argv[1:] if not a.startswith("-")]
FOLDER = WORDS[0] if WORDS else "."
LIST = "--list" in sys.argv

# (point, what, pattern): a place is a line of src/ that the pattern fits. Comments don't count.
PLACES = [
    (1, "an enum of our own in place of Option", r"\bSpot\b|-> Spot|enum Spot"),
    (1, "a refusal or an outcome by its number", r"return [1-8];$|number: [578], next|\bnumber: u32|outcome: u32|outcome: [012],|-> (Written|EqualizeAnswer|PlanetAnswer|DepressurizeAnswer|FillAnswer)$|^struct (Written|EqualizeAnswer)"),
    (1, "a number in place of a bool or of none", r"(cancelled|apart|fast): u32|direction: u32|-> u32 .*0 for none|return k as u32 \+ 1;|\b16,$|\bp == 0\b|way == 0|direction != 0"),
    (1, "a flag with a value beside it", r"(going|inside|wants|done|remark|met): bool"),
    (1, "a kind or a setting by its number", r"\b(kind|arrows|call): u32"),
    (2, "functions that differ in a type, a size or a constant", r"^\s*(pub )?fn (clear|clear_floats|part|byte_part|table|byte_table|put_bytes|put_amounts|lend_words|lend_floats|lend_events|"
     r"rows_of|marks_of|same_answer|same_gas|same_events|same_words|same_floats|ascending|rising|gain|lose|one|two|four|put_bad|put_too_long|large_rows_fit)\("),
    (2, "a start of an array of the scratch", r"^\s*pub fn \w+_at\((n: usize|row: usize|k: usize|self)"),
    (3, "a loop that counts by hand", r"^\s*while "),
    (4, "a struct copied field by field", r"^\s+(\w+): (self|s|t|i|hand|met|leg)\.\1,$"),
    (4, "a conversion by hand", r"fn (bit|wide|equalize_numbers|planet_numbers|depressurize_numbers|read_numbers|half_at|word_at|put_word|record_of|event_of|remark|digit_of)\("),
    (4, "printing by hand", r"fn (put_byte|put_digits|hex_digit|put_hex|put_number|put_amount|put_second|put_line|put_bad|put_bad_line|put_too_long|show)(<|\()|48 \+ n as u8"),
    (5, "tables by two arrays", r"rows: &Rows|marks: &Marks"),
    (5, "the sizes of the scratch side by side", r"\b(n|e): usize"),
    (5, "a fact of the sizes in a clause", r"requires.*\{ Sizes n e \}|requires (e_bound|n_bound)"),
    (5, "a fact of the tables, the plan or the zone in a clause", r"requires (accepted|threshold_value|zone_bound|tables_fit|plan_fits|planning|turns_fit)\b"),
    (5, "words and floats side by side", r"^\s*words: &(mut )?\[u32\],$|words: &(mut )?\[u32\], floats"),
    (6, "a table by a number", r"\b(rows|marks)\[[A-Z_]+\]"),
    (6, "a sorted list searched by hand", r"while lo < hi"),
    (6, "a place in the scratch by arithmetic", r"scratch::\w+_at\(|layout\.\w+_at\("),
    (6, "counts by constants, or a buffer with its length", r"counts: &mut \[u64; 40\]|counts: &\[u64; 40\]|\[0u8; 65_537\]|\[u8; 163_886\]|140_00"),
    (7, "a switch on the step to run", r"^\s*(match kind|match side|match call|match vectors::call_of)"),
]


def main():
    total = 0
    for point, what, pattern in PLACES:
        found = []
        for path in sorted(glob.glob(FOLDER + "/crates/*/src/*.rt")):
            for number, line in enumerate(open(path, encoding="utf-8"), 1):
                if not line.lstrip().startswith("//") and re.search(pattern, line):
                    found.append((path[len(FOLDER) + 1:], number, line.strip()))
        print(f"{point} {what}: {len(found)}")
        total += len(found)
        if LIST:
            for path, number, line in found:
                print(f"    {path}:{number}: {line[:120]}")
    print(f"all: {total}")


main()
