#!/usr/bin/env python3
"""Lists the places of src/ that have a form of the older language, point by point.

    python3 tools/forms.py            a count for each point
    python3 tools/forms.py POINT      and each place of a point, as 1a

It goes by the text: a place that it lists may be right as it is. docs/DESIGN-PASS.md says of each which it is."""
import collections
import itertools
import os
import re
import sys


def sources():
    for folder, _, names in sorted(os.walk('crates')):
        if os.sep + 'src' not in folder or os.sep + 'out' in folder:
            continue
        for name in sorted(names):
            if name.endswith('.rt'):
                path = os.path.join(folder, name)
                yield path, open(path).read().split('\n')


def code(line):
    """The line without its comment, and nothing of clauses and ghost items."""
    line = line.split('//')[0]
    if re.match(r'\s*(requires|ensures|ghost)\b', line):
        return ''
    return line


def by_line(pattern):
    found = []
    for path, lines in sources():
        for i, line in enumerate(lines):
            if re.search(pattern, code(line)):
                found.append(f'{path}:{i + 1}: {line.strip()}')
    return found


def matches(pattern, rows):
    """A `match` of so many arms at most, each of which fits the pattern."""
    found = []
    for path, lines in sources():
        for i, line in enumerate(lines):
            if not re.search(r'\bmatch\b.*\{\s*$', code(line)):
                continue
            indent = len(line) - len(line.lstrip())
            arms = []
            for later in lines[i + 1:i + 40]:
                if later.strip() and len(later) - len(later.lstrip()) <= indent:
                    break
                if len(later) - len(later.lstrip()) == indent + 4 and '=>' in later:
                    arms.append(later.strip())
            if arms and len(arms) <= rows and all(re.match(pattern, arm) for arm in arms):
                found.append(f'{path}:{i + 1}: {line.strip()} {" ".join(arms)[:90]}')
    return found


def functions():
    """path, line, name, parameters, clauses, body"""
    for path, lines in sources():
        i = 0
        while i < len(lines):
            head = re.match(r'\s*(?:pub(?:\(\w+\))? )?(?:final )?fn (\w+)', lines[i])
            if not head:
                i += 1
                continue
            j = i
            text = lines[i]
            while ')' not in re.sub(r'<[^()]*?>', '', text) or text.count('(') > text.count(')'):
                j += 1
                text += ' ' + lines[j].strip()
            inner = text[text.index('(') + 1:text.rindex(')')] if '->' not in text else text[text.index('(') + 1:text[:text.index('->')].rindex(')')]
            names = re.findall(r'(\w+): ', inner)
            clauses, body, k = [], [], j + 1
            indent = len(lines[i]) - len(lines[i].lstrip())
            while k < len(lines) and re.match(r'\s*(requires|ensures|where|T::|\w+::\w+:)', lines[k]):
                clauses.append(lines[k].strip())
                k += 1
            while k < len(lines) and not (lines[k].startswith(' ' * indent + '}')):
                body.append(lines[k].strip())
                k += 1
            yield path, i + 1, head.group(1), names, clauses, body
            i = j + 1


def option_matches():
    """Matches on an Option or a Result that `?`, `map`, `ok_or`, `unwrap_or`, `copied` and the like say."""
    return matches(r'(Some\(\w+\)|None|Ok\(\w+\)|Ok\(\(\)\)|Err\(\w+\)) =>', 2)


def early_none():
    """`let Some(x) = .. else` and `if let Err` that hand a refusal on."""
    found = []
    for path, lines in sources():
        for i, line in enumerate(lines):
            ahead = ' '.join(x.strip() for x in lines[i:i + 3])
            if re.search(r'let Some\(.*else \{ return None; \}', ahead) and 'let Some' in line:
                found.append(f'{path}:{i + 1}: {line.strip()}')
            if re.search(r'if let Err\(\w+\) = .*\{ return Err', ahead) and 'if let Err' in line:
                found.append(f'{path}:{i + 1}: {line.strip()}')
            if re.search(r'^\s*(if|\} else if|.*=>).*\{ Some\(.*\} else \{ None \}', line):
                found.append(f'{path}:{i + 1}: {line.strip()}')
            if re.match(r'if .*\{ Some\(.*\) \} else \{ None \}$', ' '.join(x.strip() for x in lines[i:i + 5])) and line.strip().startswith('if '):
                found.append(f'{path}:{i + 1}: {line.strip()}')
    return found


def codes():
    """Functions that answer a number for a kind or a flag beside a value, and enums shaped like Option or Result."""
    return by_line(r'-> u8\b|-> \(.*bool.*\)|-> \(bool|-> \(&.static str|Result<.*, u(8|16|32)>')


def twins():
    """Pairs of functions whose bodies are the same but for names, types and numbers."""
    def shape(body):
        text = ' '.join(body)
        seen = {}

        def name(m):
            word = m.group(0)
            if word in ('if', 'else', 'match', 'return', 'let', 'for', 'in', 'while', 'Some', 'None', 'Ok', 'Err', 'mut', 'self', 'true', 'false', 'Self', 'u32', 'u64', 'usize'):
                return word
            return seen.setdefault(word, f'x{len(seen)}')
        return re.sub(r'[A-Za-z_]\w*', name, re.sub(r'\b\d[\d_]*\b', '0', text))
    groups = collections.defaultdict(list)
    for path, line, name, _, _, body in functions():
        if len(re.findall(r'\w+', ' '.join(body))) >= 2 and not (len(body) < 3 and body[-1] in ('Ok(())', 'None', 'true', 'false')):
            groups[shape(body)].append(f'{path}:{line} {name}')
    return [' ~ '.join(g) for s, g in sorted(groups.items()) if len(g) > 1]


def repeated_tests():
    """Conditions that stand in three places or more."""
    groups = collections.defaultdict(list)
    for path, lines in sources():
        for i, line in enumerate(lines):
            m = re.match(r'\s*(?:\} else )?if (.*) \{', code(line))
            if m and 'assert' not in line:
                groups[re.sub(r'self\.|\*', '', m.group(1))].append(f'{path}:{i + 1}')
    return [f'{c}: {" ".join(p)}' for c, p in sorted(groups.items()) if len(p) > 2]


def index_loops():
    """Loops over a range of numbers, `while`, and counters."""
    return by_line(r'\bfor \w+ in [\w.()]+\.\.|\bwhile\b|^\s*\w+ (\+|-)= 1;|\w+ = \w+ (\+|-) 1;')


def hand_written():
    """Comparisons, conversions and printing by hand."""
    return by_line(r'fn (less|below|is_less|kind|why|eq|cmp|clone|print_answer|number|named|from|told)\b') + by_line(r'"  \w+.*no \{number\}')


def facts():
    """Facts that stand in the contracts of three functions or more of one crate."""
    groups = collections.defaultdict(set)
    for path, line, name, _, clauses, _ in functions():
        crate = path.split(os.sep)[1]
        for clause in clauses:
            m = re.match(r'(requires|ensures) ?\w* ?\{ (.*) \}', clause)
            if m:
                text = re.sub(r'\.(old|new|now|entry)\b', '', m.group(2))
                text = re.sub(r'\b(ring|self|list)\b\.?', '', text)
                if m.group(1) == 'requires':
                    groups[crate, text].add(f'{path}:{line} {name}')
    return [f'{k[0]}: {k[1]}: {len(v)}: {", ".join(sorted(x.split()[-1] for x in v))}' for k, v in sorted(groups.items()) if len(v) > 2]


def together():
    """Parameters that go together through three functions or more of one crate: three or more of them, or two through five functions."""
    by_crate = collections.defaultdict(dict)
    for path, line, name, names, _, _ in functions():
        by_crate[path.split(os.sep)[1]][f'{path}:{line} {name}'] = set(names) - {'self', 'rt'}
    found = {}
    for crate, each in sorted(by_crate.items()):
        for some in {pair for names in each.values() for pair in itertools.combinations(sorted(names), 2)}:
            where = [f for f, names in each.items() if set(some) <= names]
            if len(where) > 2:
                all_of_them = frozenset.intersection(*(frozenset(each[f]) for f in where))
                if len(all_of_them) > 2 or len(where) > 4:
                    found[crate, all_of_them] = where
    return [f'{crate}: {" ".join(sorted(some))}: {len(where)}: {", ".join(sorted(f.split()[-1] for f in where))}' for (crate, some), where in sorted(found.items(), key=lambda x: (x[0][0], sorted(x[0][1])))]


def buffers():
    """Fields that are a length, a link or an index beside a list, arrays of a fixed size, and vectors that are filled by hand."""
    found = []
    for path, lines in sources():
        inside = False
        for i, line in enumerate(lines):
            if re.match(r'\s*(pub )?struct \w+.*\{', line):
                inside = True
            elif line.strip() == '}':
                inside = False
            text = code(line)
            if inside and re.match(r'\s*(pub )?(count|touched|len|used|next|back|slot|at|rows|heads|left): (u32|u64|usize|\[|Option<u32>)', text):
                found.append(f'{path}:{i + 1}: {line.strip()}')
            elif inside and re.search(r'\[.*; \d+\]', text) or re.search(r'Vec<|Vec::new|static .*\[', text):
                found.append(f'{path}:{i + 1}: {line.strip()}')
    return found


def switches():
    """Matches on the kind of a step or a call, and functions that are passed about."""
    return by_line(r'\bdyn\b|\bFn(Mut|Once)?\(|\bfn\(|match (step|call|op|kind|direction)\b')


def proofs(goals):
    found = []
    for folder, _, names in sorted(os.walk('crates')):
        if os.sep + 'proofs' not in folder or os.sep + 'out' in folder:
            continue
        for name in sorted(names):
            if not name.endswith('.antt') or name == 'Lib.antt':
                continue
            path = os.path.join(folder, name)
            for i, line in enumerate(open(path).read().split('\n')):
                if re.match(r'(abbrev |unfoldable )?(pub )?[^\s:-][^:=]* : ', line) and (' : goal.' in line) == goals:
                    found.append(f'{path}:{i + 1}: {line.strip()[:100]}')
    return found


def answers():
    """Answers, invariants and measures of functions that stand in proof files."""
    return proofs(True)


def lemmas():
    """Lemmas and definitions of proof files."""
    return proofs(False)


POINTS = {
    '1a': option_matches, '1b': early_none, '1c': codes,
    '2a': twins, '2b': repeated_tests,
    '3': index_loops,
    '4': hand_written,
    '5a': facts, '5b': together,
    '6': buffers,
    '7': switches,
    '8a': answers, '8b': lemmas,
}

if __name__ == '__main__':
    wanted = sys.argv[1:]
    for point, find in POINTS.items():
        if wanted and point not in wanted:
            continue
        places = find()
        print(f'{point}: {len(places)}  {(find.__doc__ or "").strip()}')
        if wanted:
            for place in places:
                print('   ', place)
