#!/usr/bin/env python3
"""Counts the places in src/ (and the answers in proofs/) that docs/DESIGN-PASS.md speaks of, point by point.

    python3 tools/places.py [FOLDER] [-v]

FOLDER is a checkout of this repository; -v prints the places. Points 4, 6 and 7 go by names of functions and parameters."""
import glob, os, re, sys

args = [a for a in sys.argv[1:] if a != '-v']
root = args[0] if args else '.'
verbose = '-v' in sys.argv
sources = sorted(glob.glob(os.path.join(root, 'crates/*/src/*.rt')))
answers = sorted(glob.glob(os.path.join(root, 'crates/*/proofs/*/**/Answers.antt'), recursive=True))
lemmas = sorted(glob.glob(os.path.join(root, 'crates/*/proofs/*.antt')))


def lines(pattern, files=sources):
    found = []
    for path in files:
        for number, line in enumerate(open(path), 1):
            if re.search(pattern, line):
                found.append(f'{os.path.relpath(path, root)}:{number}: {line.strip()}')
    return found


def functions():
    """Each function with a body: path, name, parameters and the tokens of its body, names and numbers made alike."""
    for path in sources:
        text = re.sub(r'//[^\n]*', '', open(path).read())
        for head in re.finditer(r'^ *(?:pub )?(?:extern "C" )?fn (\w+)(?:<[^(]*>)?\(([^)]*)\)[^\n{]*(?:\n(?: +(?:requires|ensures)[^\n]*\n)* *)?\{\n', text, re.M):
            depth, end = 1, head.end()
            while depth and end < len(text):
                depth += {'{': 1, '}': -1}.get(text[end], 0)
                end += 1
            tokens = re.findall(r'\w+|[^\s\w]', text[head.end():end])
            keep = {'if', 'else', 'while', 'for', 'in', 'match', 'return', 'let', 'mut', 'as', 'true', 'false'}
            shape = ' '.join(t if t in keep or not re.match(r'\w', t) else '_' for t in tokens)
            yield os.path.relpath(path, root), head.group(1), re.sub(r'\s+', ' ', head.group(2)), shape, len(tokens)


def twins():
    by_shape = {}
    for path, name, _, shape, size in functions():
        if size >= 12:
            by_shape.setdefault(shape, []).append(f'{path} {name}')
    return [', '.join(v) for v in by_shape.values() if len(v) > 1]


def repeated_facts():
    count = {}
    for path in sources:
        for fact in re.findall(r'^ *requires[ \w]*\{(.*)\}$', open(path).read(), re.M):
            count.setdefault((path, fact.strip()), []).append(1)
    return [f'{os.path.relpath(p, root)}: {f}: {len(n)} times' for (p, f), n in count.items() if len(n) > 2]


def travelling():
    count = {}
    for path, name, parameters, _, _ in functions():
        names = [p.strip() for p in parameters.split(',') if ':' in p]
        for pair in zip(names, names[1:]):
            count.setdefault((path, pair), []).append(name)
    return [f'{p}: {a}, {b}: {", ".join(n)}' for (p, (a, b)), n in count.items() if len(n) > 2]


def repeated_answers():
    count = {}
    for path in answers:
        for answer in re.findall(r'^(\S+) c =\s*(.*(?:\n    .*)*)', open(path).read(), re.M):
            count.setdefault(re.sub(r'\s+', ' ', answer[1]), []).append(f'{os.path.relpath(path, root)} {answer[0]}')
    return [', '.join(v) for k, v in count.items() if len(v) > 1 and len(k) > 60]


POINTS = [
    ('1  own enums, numbers for refusals, a number that says there is none',
     lines(r"^(pub )?enum |refusal: u32|MALFORMED: |// .*([;,] (or )?0 (where|if|for|when)|; 0\b|, or 0\b|16 where)")),
    ('2  functions whose bodies differ in names and numbers alone', twins()),
    ('3  loops that count by hand or step a place', lines(r"^ *('\w+: )?(while|loop)\b")),
    ('4  equality, copying, conversion, constructors and printing by hand',
     lines(r'fn (is_same_|are_same_|is_entry|have_entries|class_number|is_class|narrowed|structure_numbers|as_device|as_request|reply|row|number_of|'
           r'series_of|no_plan|entry_of|verdict_of|refuse|signed_byte|signed_halfword|word_bits|copy|move_chunk|put|print\w*|malformed|least|'
           r'stricter_alignment|next_multiple|negate)\b')),
    ('5  a fact in three contracts of a crate', repeated_facts()),
    ('5  parameters that stand together in three functions of a crate', travelling()),
    ('6  a slice with a place or a length beside it', lines(r'fn .*: &(mut )?\[\w+\], (at|to|from|place|start|n|size|count): usize')),
    ('7  a flag or a letter that says which step runs', lines(r'fn .*\b(walks|back|wanted|word): (bool|u8)|^ *match (word|letter)\b')),
    ('8  answers', lines(r'^pub \S+ : goal\.', answers)),
    ('8  answers whose text stands twice', repeated_answers()),
    ('8  lines that give a lemma or a field its type', lines(r'^ *(abbrev )?(pub )?(abbrev )?[^\s(){}:]+( \{[^:]*\})* : ', lemmas)),
]

for title, found in POINTS:
    print(f'{len(found):4}  {title}')
    if verbose:
        for place in found:
            print(f'          {place}')
