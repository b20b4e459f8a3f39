#!/usr/bin/env python3
"""Counts the places of docs/DESIGN-PASS.md in crates/*/src: forms that an older Rattle asked for.

usage: python3 tools/places.py          a line for each point, with the crates
       python3 tools/places.py -l       the places too, file and line
"""
import collections
import glob
import re
import sys

ENTRY = {'write_key', 'analyse', 'write_plan', 'check_plan', 'run', 'listing'}  # answer three numbers, as C takes them


def sources():
    for path in sorted(glob.glob('crates/*/src/**/*.rt', recursive=True)):
        yield path, open(path).read()


def functions(text):
    """Yields line, name, parameters, what is answered, and body of each function."""
    for m in re.finditer(r'\bfn (\w+)(?:<[^>(]*>)?\(([^)]*)\)(?: -> ([^\n{]+))?', text):
        start = text.find('\n{\n', m.end())
        inline = text.find(' {\n', m.end() - 2)
        if start < 0 or (0 <= inline < start and '\n' not in text[m.end():inline].strip('\n') and 'requires' not in text[m.end():inline]):
            start = inline
        end = text.find('\n}\n', start)
        yield text.count('\n', 0, m.start()) + 1, m.group(1), m.group(2), (m.group(3) or '').strip(), text[start:end]


def lines(pattern, skip_comments=True):
    for path, text in sources():
        for k, line in enumerate(text.split('\n'), 1):
            if skip_comments and line.lstrip().startswith('//'):
                continue
            if re.search(pattern, line):
                yield path, k, line.strip()


def comments(pattern):
    for path, text in sources():
        for k, line in enumerate(text.split('\n'), 1):
            if line.lstrip().startswith('//') and re.search(pattern, line):
                yield path, k, line.strip()


def answers():
    for path, text in sources():
        for k, name, parameters, answered, body in functions(text):
            if answered.startswith('Answer') and name not in ENTRY:
                yield path, k, name


def twins():
    """Functions whose bodies are the same but for names, types of numbers and literals."""
    seen = collections.defaultdict(list)
    for path, text in sources():
        for k, name, parameters, answered, body in functions(text):
            words = re.findall(r'\w+|[^\w\s]', re.sub(r'//.*', '', body))
            names, form = {}, []
            for w in words:
                if re.fullmatch(r'u8|u32|u64|usize', w):
                    form.append('T')
                elif re.fullmatch(r'\d\w*', w):
                    form.append('N')
                elif re.fullmatch(r'[a-z_]\w*', w) and w not in ('if', 'else', 'while', 'for', 'in', 'let', 'mut', 'return', 'as', 'len', 'match'):
                    form.append(names.setdefault(w, 'x%d' % len(names)))
                else:
                    form.append(w)
            if len(form) > 8:
                seen[' '.join(form)].append((path, k, name))
    for group in seen.values():
        if len(group) > 1:
            for place in group:
                yield place


def travelling():
    groups = [('head', 'starts', 'rows'), ('n', 'starts', 'rows'), ('parents', 'order', 'pops', 'fstarts', 'frows', 'work')]
    for path, text in sources():
        for k, name, parameters, answered, body in functions(text):
            for group in groups:
                if all(re.search(r'\b%s:' % p, parameters) for p in group):
                    yield path, k, '%s: %s' % (name, ', '.join(group))
                    break


POINTS = [
    ('1 own enums', lambda: lines(r'^(pub )?enum \w+')),
    ('1 functions below the entry points that answer an Answer, number 0 for none', answers),
    ('1 numbers of refusals as literals', lambda: lines(r'answered\([0-9]+,|\bnumber: [0-9]+,|return (5|6|14|21|22|23);')),
    ('1 functions that answer 0 for none', lambda: comments(r'[^0-9]0 (if there is none|if it has none|if none|if there are none)|[Ee]lse( answers)? 0\b')),
    ('2 functions that differ in names, types and literals alone', twins),
    ('3 while loops', lambda: lines(r"^('\w+: )?while |^\s+('\w+: )?while ")),
    ('3 for loops over a range', lambda: lines(r"^\s*('\w+: )?for \w+ in .*\.\.")),
    ('4 calls of conversions, least, greatest and clearing by hand', lambda: lines(r'basics::(wide8|wide32|narrow32|lesser|greater|greater32)\b|slices::(clear|part)')),
    ('4 functions of that kind', lambda: lines(r'\bfn (copy_at|copy_rest|write_word|same_rows|put_byte|keep_row|wide\w*|narrow\w*|lesser|greater\w*|clear\d\w*|at_most_one|put_on|is_digit|least)\(')),
    ('4 printing and reading by file numbers', lambda: lines(r'io::(print_decimal|write_all|read_full)')),
    ('5 functions with parameters that travel together', travelling),
    ('6 structs of an array or a buffer and a count', lambda: lines(r'^\s*pub (count|len|turn): usize,')),
    ('7 numbers for a step to take', lambda: lines(r'match line::lent\(|if (turn|g\.turn|mark) == [0-9]|match mark|match choice')),
]

if __name__ == '__main__':
    for name, places in POINTS:
        found = list(places())
        crates = collections.Counter(path.split('/')[1] for path, _, _ in found)
        print('%3d  %s: %s' % (len(found), name, ', '.join('%s %d' % c for c in sorted(crates.items()))))
        if '-l' in sys.argv:
            for path, k, what in found:
                print('       %s:%d  %s' % (path, k, what))
