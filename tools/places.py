#!/usr/bin/env python3
"""Counts the places of docs/DESIGN-PASS.md, point by point: tools/places.py [FOLDER] [--list].

FOLDER is a checkout, this one if it is left out. A row is a pattern over the lines of crates/*/src/*.rt (or another glob), with how often it
stands there. --list prints the lines too. Rows of point 2 and 4 name the functions that were found by reading.
"""
import collections, glob, os, re, sys

top = next((a for a in sys.argv[1:] if not a.startswith('-')), os.path.join(os.path.dirname(__file__), '..'))
show = '--list' in sys.argv
SRC = 'crates/*/src/*.rt'

ROWS = [
    ('1a own enums of the shape of Option or Result', SRC, r'^\s*(pub )?enum (Verdict|Done|Found|Located|Turn)\b|^\s*NoType\('),
    ('1b a flag with a value beside it', SRC, r'^\s*(pub )?verdict: Verdict,'),
    ('1c refusals by number', SRC, r'\brefuse(_at)?\([0-9]|\bnumber: [1-9]'),
    ('1d a number or a place that stands for none', SRC, r'fn (lowest_out_of_range|lowest_overlap|first_pair|scan|offset_at|offset_on|near|inside)\b.*-> (usize|u64|bool)'),
    ('1e numbers for kinds of calls', SRC, r'^\s*which: u32|match which \{|match field \{|match part \{'),
    ('2a reading and sampling, function by function', 'crates/{reading,sampling}/src/*.rt', r'^\s*(pub )?fn (read_rows|read_plane|read_planes|read_inlines|read_box|read_boxes|read_column|read_columns|read_bricks)\b'),
    ('2b the same function in two crates or for two types', SRC, r'^\s*(pub )?fn (read_full|argument|wide|within|floats_within|least|with_part|with_float|with_range|u16_at|u32_at|u64_at|join2|join4|join_halves|push_u32|push_u64|decode_scaled|decode_widened|float_of|widen_bits)\b'),
    ('2c a width that is a number in each call', SRC, r'^\s*_? ?=?>? ?[124_] => (u32::from\()?(fill|gather|u8_at|u16_at|u32_at)\w*\('),
    ('3 loops that count by hand', SRC, r'^\s*(while|loop)\b'),
    ('4a conversions by hand', SRC, r'^\s*(pub )?fn (wide|index|done|located|found|known|opened|numbers|fill_of|distance)\('),
    ('4b printing by hand', SRC, r'^\s*(pub )?fn say_\w+\('),
    ('4c comparing by hand', SRC, r'if \w+ < \w+ \{ \w+ \} else \{|\[0\] == \d+\) & '),
    ('6a a buffer and a place in it', SRC, r'out: &mut \[u8\], at: usize'),
    ('7 a switch on which step to run', SRC, r'fn .*\b(plain|stored|write): bool'),
]


def files(pattern):
    m = re.match(r'(.*)\{([^}]*)\}(.*)', pattern)
    names = [m[1] + n + m[3] for n in m[2].split(',')] if m else [pattern]
    return sorted(f for n in names for f in glob.glob(os.path.join(top, n)))


def row(name, found):
    print(f'{name}: {len(found)}')
    if show:
        for f in found:
            print('    ' + f)


for name, pattern, expr in ROWS:
    found = []
    for f in files(pattern):
        for n, line in enumerate(open(f, encoding='utf-8'), 1):
            if re.search(expr, line):
                found.append(f'{os.path.relpath(f, top)}:{n}: {line.strip()}')
    row(name, found)

clauses, wide = collections.Counter(), []
for f in files(SRC):
    text = open(f, encoding='utf-8').read()
    for m in re.finditer(r'fn (\w+)[^(]*\(([^{]*?)\)(?: -> [^\n{]*)?\n((?:\s+(?:requires|ensures)[^\n]*\n)*)', text):
        params = [p for p in re.split(r',\s*(?![^<\[]*[>\]])', m[2].strip().rstrip(',')) if p]
        if len(params) > 7:
            wide.append(f'{os.path.relpath(f, top)}: {m[1]} has {len(params)}')
        for clause in re.findall(r'requires(?: \w+)? \{ (.*) \}', m[3]):
            for fact in re.split(r' × ', clause):
                clauses[(f.split('/')[-3], fact.strip('()'))] += 1
row('5a functions of more than seven parameters', wide)
row('5b facts that stand in the requires of three or more functions of a crate', [f'{c}: {fact} ({n})' for (c, fact), n in clauses.most_common() if n > 2])

answers = glob.glob(os.path.join(top, 'crates/*/proofs/**/Answers.antt'), recursive=True)
lemmas = glob.glob(os.path.join(top, 'crates/*/proofs/*.antt'))
print(f'8a files of answers: {len(answers)}, lines: {sum(len(open(f, encoding="utf-8").read().splitlines()) for f in answers)}')
print(f'8b lines of lemma files: {sum(len(open(f, encoding="utf-8").read().splitlines()) for f in lemmas)}')
