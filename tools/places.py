#!/usr/bin/env python3
"""places [ROOT]: counts the places of docs/DESIGN-PASS.md in the sources below ROOT/crates (default: the current folder), a line a count.
With a second argument that names a count, lists its places."""
import glob, os, re, sys
from collections import defaultdict

root = sys.argv[1] if len(sys.argv) > 1 else '.'
wanted = sys.argv[2] if len(sys.argv) > 2 else None
found = defaultdict(list)


def bare(text):
    """The text without comments."""
    return re.sub(r'//[^\n]*', '', text)


def closing(text, at, pair):
    """The place after the bracket that closes the one at `at`."""
    depth = 0
    for i in range(at, len(text)):
        depth += (text[i] == pair[0]) - (text[i] == pair[1])
        if depth == 0:
            return i + 1
    return len(text)


class Function:
    def __init__(self, crate, text, start):
        self.crate = crate
        self.name = re.match(r'fn (\w+)', text[start:]).group(1)
        at = text.index('(', start)
        end = closing(text, at, '()')
        self.parameters = [' '.join(p.split()) for p in re.split(r',(?![^<\[(]*[>\])])', text[at + 1:end - 1]) if ':' in p]
        # the contract: from the parameters to the body's bracket
        i = end
        while i < len(text) and not (text[i] == ';' and '{' not in text[end:i]):
            if text[i] == '{':
                if re.search(r'(requires|ensures)(\s+\w+)?\s*$', text[end:i]):
                    i = closing(text, i, '{}')
                    continue
                break
            i += 1
        self.contract = text[end:i]
        self.body = text[i:closing(text, i, '{}')] if i < len(text) and text[i] == '{' else ''
        self.of_c = bool(re.search(r'extern "C"\s*$', text[:start]))

    def where(self):
        return f'{self.crate}::{self.name}'


functions = []
for path in sorted(glob.glob(f'{root}/crates/*/src/**/*.rt', recursive=True)):
    crate = path.split('/crates/')[1].split('/')[0]
    text = bare(open(path).read())
    here = [Function(crate, text, m.start()) for m in re.finditer(r'\bfn \w+[<(]', text)]
    functions += here
    # 1: an enum with a refusal in one of its variants; a struct with an outcome or a flag beside other fields
    for m in re.finditer(r'\benum (\w+)', text):
        inner = text[text.index('{', m.start()):closing(text, text.index('{', m.start()), '{}')]
        if re.search(r'\((answer::)?Refusal\)', inner):
            found['1 own shapes'].append(f'{crate}::{m.group(1)}')
    for m in re.finditer(r'\bstruct (\w+)[^;{(]*\{', text):
        inner = text[m.end() - 1:closing(text, m.end() - 1, '{}')]
        fields = re.findall(r'^\s*(?:pub(?:\(crate\))? )?(\w+): ([^,]+),', inner, re.M)
        if len(fields) > 1 and any(t in ('Outcome', 'bool') for n, t in fields):
            found['1 own shapes'].append(f'{crate}::{m.group(1)}')
        for n, t in fields:
            if re.fullmatch(r'(column_|row_)?kind|room|opened', n) and t == 'u32':
                found['1 kinds and rooms as numbers'].append(f'{crate}::{m.group(1)}.{n}')
    for f in here:
        for m in re.finditer(r'let (?:Ok|Outcome::Done)\(\w+\) = \w+ else', f.body):
            found['1 refusals handed on by hand'].append(f.where())
        for p in f.parameters:
            if re.fullmatch(r'((column_|row_)?kind|room): u32', p):
                found['1 kinds and rooms as numbers'].append(f'{f.where()}({p})')
        # 3
        for m in re.finditer(r'\bwhile ', f.body):
            found['3 while'].append(f.where())
        # 4: what the library has, written out
        if re.fullmatch(r'lower|wide|abs|sign|is_negative|max0|at_least_one|round_half_up|of_word|word_of|low_byte|put_four|magnitude_of|narrow|lay_zeros|put|'
                        r'number_at|gather|is_same|wrapping_\w+|turned|at|signed|unsigned|count|side_of|bit_of|print_text', f.name):
            found['4 by hand'].append(f.where())
        # 6: a length that a contract ties to a buffer
        for m in re.finditer(r'(\b[a-z_]\w*\b|\b\d+\b) ≤ length (\w+)\.(old|now)', f.contract):
            if f'{m.group(1)}: usize' in f.parameters:
                found['6 lengths beside buffers'].append(f'{f.where()} {m.group(0)}')
        # 7: a parameter that picks the step
        if any(re.fullmatch(r'\w+: bool', p) and re.search(rf'\bif {p.split(":")[0]}\b', f.body) for p in f.parameters):
            found['7 switches'].append(f.where())

# 2: functions alike but for names, numbers and types
alike = defaultdict(list)
for f in functions:
    if f.of_c or f.body.count('\n') < 3:
        continue
    shape = re.sub(r'\b(?!(?:fn|pub|let|mut|if|else|while|for|in|return|match|Ok|Err|as|true|false|impl|self)\b)[A-Za-z_]\w*\b|\b\d\w*\b', 'x', f.body)
    alike[re.sub(r'\s+', ' ', shape)].append(f.where())
for group in alike.values():
    if len(group) > 1:
        found['2 twins'] += group

# 5: facts in three or more contracts, by what they say of which names; parameters that go together in three or more functions
facts = defaultdict(set)
for f in functions:
    for m in re.finditer(r'requires(?: \w+)? \{', f.contract):
        inner = f.contract[m.end():closing(f.contract, m.end() - 1, '{}') - 1]
        for fact in re.split(r' × ', inner):
            fact = fact.strip().strip('()').strip()
            facts[re.sub(r'\.(old|now)\b', '', fact)].add(f.where())
for fact, at in sorted(facts.items()):
    if len(at) > 2:
        found['5 facts in three contracts'].append(f'{fact}: {", ".join(sorted(at))}')
together = defaultdict(set)
for f in functions:
    names = [p for p in f.parameters if 'self' not in p.split(':')[0]] if not f.of_c else []
    for i in range(len(names)):
        for j in range(i + 3, len(names) + 1):
            together[tuple(names[i:j])].add(f.where())
groups = {k: v for k, v in together.items() if len(v) > 2}
for k, v in sorted(groups.items()):
    if not any(set(k) < set(o) and groups[o] >= v for o in groups):
        found['5 parameters that go together'].append(f'{", ".join(k)}: {len(v)} functions')

# 6: parallel arrays: three or more slices or arrays of one length handed together
for f in functions:
    n = sum(1 for p in f.parameters if re.search(r': &(mut )?\[(u16|usize|u32)\]', p))
    if n > 2:
        found['6 parallel arrays'].append(f.where())

if wanted:
    for name, at in sorted(found.items()):
        if wanted in name:
            print(f'{name}:')
            for p in at:
                print(f'    {p}')
    sys.exit()
for name, at in sorted(found.items()):
    print(f'{name}: {len(at)}')
answers = glob.glob(f'{root}/crates/*/proofs/**/Answers.antt', recursive=True)
proofs = glob.glob(f'{root}/crates/*/proofs/**/*.antt', recursive=True)
lines = lambda paths: sum(open(p).read().count('\n') for p in paths)
print(f'8 answers: {len(answers)} files, {lines(answers)} lines')
print(f'8 proofs: {len(proofs)} files, {lines(proofs)} lines')
print(f'functions: {len(functions)}; edits: {len(glob.glob(f"{root}/crates/*/must-fail/*.edit"))}')
