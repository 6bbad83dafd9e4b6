#!/usr/bin/env python3
"""Counts, at the top of a checkout, the places of the eight points of docs/DESIGN-PASS.md. With -v it prints them too."""
import collections
import glob
import re
import sys

VERBOSE = '-v' in sys.argv
SOURCES = sorted(f for f in glob.glob('crates/*/src/**/*.rt', recursive=True) if not f.endswith('_tests.rt'))
TEXT = {f: open(f).read() for f in SOURCES}


def tell(label, what, places):
    print(f'{label:3} {len(places):4}  {what}')
    if VERBOSE:
        for place in places:
            print('      ' + place[:150])


def lines(pattern, but=None):
    """The lines of src/ that match one pattern and not another."""
    found = []
    for f, text in TEXT.items():
        for n, line in enumerate(text.split('\n'), 1):
            if re.search(pattern, line) and not (but and re.search(but, line)):
                found.append(f'{f}:{n}: {line.strip()}')
    return found


def functions():
    """Each function with its file, name, parameters and the tokens of its body."""
    for f, text in TEXT.items():
        code = re.sub(r'//[^\n]*', '', text)
        for m in re.finditer(r'\bfn (\w+)[^(]*\(', code):
            close, depth = m.end(), 1
            while depth:
                depth += {'(': 1, ')': -1}.get(code[close], 0)
                close += 1
            head = code.find('\n{', close)
            head2 = code.find(' {\n', close)
            start = min(x for x in (head, head2, len(code)) if x >= 0)
            nxt = code.find('\n}', start)
            body = re.findall(r'\w+|[^\w\s]', code[start:nxt])
            yield f, m.group(1), code[m.end():close - 1], body


KEYWORDS = {'if', 'else', 'match', 'for', 'in', 'while', 'let', 'mut', 'return', 'Some', 'None', 'Ok', 'Err', 'self', 'as'}


def shape(tokens):
    return ' '.join(t if t in KEYWORDS or not re.match(r'\w', t) else 'x' for t in tokens)


def twins():
    by_shape = collections.defaultdict(list)
    for f, name, _, body in functions():
        if len(body) >= 24:
            by_shape[shape(body)].append(f'{f} {name}')
    return ['; '.join(group) for group in by_shape.values() if len(group) > 1]


def repeated_facts():
    facts = collections.Counter()
    for text in TEXT.values():
        for m in re.finditer(r'(?m)^ *requires *\w* *\{ (.*) \}$', text):
            facts[m.group(1)] += 1
    return [f'{n} times {fact}' for fact, n in facts.most_common() if n >= 3]


def travelling():
    groups = collections.defaultdict(list)
    for f, name, parameters, _ in functions():
        parts = [re.sub(r"\s+|'\w+ ?", ' ', p).strip() for p in re.split(r',\s*(?![^<(\[]*[>)\]])', parameters)]
        parts = [p for p in parts if ':' in p]
        for i in range(len(parts)):
            for j in range(i + 1, len(parts)):
                for k in range(j + 1, len(parts)):
                    groups[(parts[i], parts[j], parts[k])].append(f'{f} {name}')
    seen, found = set(), []
    for group, where in sorted(groups.items(), key=lambda g: -len(g[1])):
        if len(where) >= 3 and tuple(where) not in seen:
            seen.add(tuple(where))
            found.append(f"{', '.join(group)} in {len(where)}: {'; '.join(where)}")
    return found


tell('1a', 'cases matched to a number or a byte', lines(r"::[A-Z]\w+ => (b'|[0-9])"))
tell('1b', 'numbers matched to a case', lines(r'^ +[0-9_]+ => ((Some|Ok)\()?[A-Z]'))
tell('1c', 'cases matched to several numbers, and digits for kinds', lines(r'digit: u8|=> \([0-9]+, '))
tell('2a', 'groups of functions whose bodies have one shape', twins())
tell('3a', 'while, loop, and for over a range', lines(r'^ *(while|loop)\b|^ *for .* in .*\.\.', r'\.len\(\)\)|zip'))
tell('3b', 'other for loops', lines(r'^ *for ', r' in [^{]*\.\.(?!.*zip)'))
tell('4a', 'comparisons of the number inside a unit', lines(r'\.0 (<|>|<=|>=|==|!=) [\w.]+', r'requires|ensures|ghost|10 \*'))
tell('4b', 'comparisons and conversions by a function', lines(r'\.is\(|fn (is|from_number|from_count|number|periods|place|byte|within_week|lettered)\('))
tell('5a', 'facts that three or more contracts ask for', repeated_facts())
tell('5b', 'three parameters that go together through three or more functions', travelling())
tell('6a', 'fields and parameters that are arrays', lines(r': \[[^\]]*; *[0-9A-Z_]+\](,|$)|: Square,'))
tell('7a', 'an enum or a match that says which step to run', lines(r'match (what|rule|self\.treatment)\b|enum (Told|Treatment)|what: Told'))
answers = glob.glob('crates/*/proofs/**/Answers.antt', recursive=True)
tell('8a', 'files of answers', sorted(answers))
tell('8b', 'answers', [l for f in answers for l in re.findall(r'(?m)^(?:abbrev )?pub .* : goal\..*', open(f).read())])
proofs = glob.glob('crates/*/proofs/**/*.antt', recursive=True)
tell('8c', 'lines of proofs/', [l for f in proofs for l in open(f).read().split('\n') if l.strip()] if not VERBOSE else [])
