#!/usr/bin/env python3
"""Counts the places of docs/DESIGN-PASS.md in crates/*/src: tools/design_counts.py [-v] [FOLDER]. With -v each place is printed."""
import collections, glob, os, re, sys

args = sys.argv[1:]
verbose = '-v' in args
args = [a for a in args if a != '-v']
if args:
    os.chdir(args[0])

FN = re.compile(
    r'(?m)^( *)((?:pub(?:\(\w+\))? )?(?:unsafe )?(?:extern "C" )?(?:const )?fn (\w+)(?:[^{;\[]|\[[^\]]*\]|\{[^{}]*\})*?)\n?\1\{\n'
    r'((?:.|\n)*?)^\1\}', re.M)
sources = sorted(f for f in glob.glob('crates/*/src/**/*.rt', recursive=True))
text = {f: open(f).read() for f in sources}


def show(title, places):
    print('%4d  %s' % (len(places), title))
    if verbose:
        for p in places:
            print('        ' + p)


def lines(pattern, skip=()):
    out = []
    for f, s in text.items():
        for i, l in enumerate(s.split('\n'), 1):
            if re.search(pattern, l) and not l.lstrip().startswith('//') and not any(k in f for k in skip):
                out.append('%s:%d: %s' % (f, i, l.strip()))
    return out


functions = []
for f, s in text.items():
    for m in FN.finditer(s):
        functions.append((f, m.group(3), m.group(2), m.group(4)))

print('functions', len(functions))
print('1  enums, codes')
show('enums that hold a value or a refusal', lines(r'^\s*(pub )?enum (Answer|Draw|Advance|Progress)\b'))
show('functions that take the number of a refusal out of an answer', lines(r'fn refusal_of\b'))
show('matches on a number that stands for a kind', lines(r'^\s*match (number|line\[0\]) \{'))
show('a number for the scheme of a set', lines(r'pub scheme: u32'))
handed_on = [r'let Answer::Done = \w+ else', r'Answer::Refused\(number, place\) => Answer::Refused', r'let (Advance::Counter|Progress::Reached)\(.*else']
show('answers handed on by a match or a let-else', lines('|'.join(handed_on)))
show('errors taken out of a Result by hand', lines(r'unwrap_err\(|if let Err\('))

print('2  twins')
skeletons = collections.defaultdict(list)
for f, name, head, body in functions:
    if len(body.strip().split('\n')) < 3:
        continue
    shape = re.sub(r'//.*', '', body)
    shape = re.sub(r'\b(?!if|else|while|for|in|let|mut|return|match|true|false|as|loop|break)[a-z_]\w*\b', 'x', shape)
    shape = re.sub(r'\b[A-Z]\w*\b', 'X', shape)
    shape = re.sub(r'\b0x[0-9a-f]+\b|\b\d[\d_]*(?:u8|u32|u64|usize)?\b', '0', shape)
    shape = re.sub(r'\s+', ' ', shape)
    skeletons[shape].append('%s::%s' % (f.split('/')[1], name))
groups = [g for g in skeletons.values() if len(g) > 1]
show('groups of functions with one shape, of three lines or more', [', '.join(g) for g in sorted(groups)])

print('3  loops')
show('while and loop', lines(r'^\s*(while|loop)\b'))
show('for', lines(r"^\s*('\w+: )?for "))

print('4  conversion, order, printing')
show('casts by as that lose nothing', lines(r' as (u64|usize|i64|u128)\b') )

print('5  facts')
facts = collections.defaultdict(set)
for f, name, head, body in functions:
    for c in re.finditer(r'requires(?: \w+)? \{((?:[^{}]|\n)*)\}', head):
        for fact in c.group(1).split('×'):
            fact = re.sub(r'[()\s]+', ' ', fact).strip()
            if fact:
                facts[fact].add('%s::%s' % (f.split('/')[1], name))
often = sorted(((len(v), k) for k, v in facts.items() if len(v) >= 3), reverse=True)
show('facts that stand in the contracts of three functions or more', ['%d %s' % o for o in often])

print('7  switches')
show('matches whose arms call functions by a number', lines(r'^\s*match (number|line\[0\]) \{'))
