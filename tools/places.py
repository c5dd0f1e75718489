#!/usr/bin/env python3
"""Lists the places in crates/*/src that docs/DESIGN-PASS.md counts, point by point.

    tools/places.py [POINT ..] [--at COMMIT] [--count]

A place is a line `POINT kind crate/file:line name`. The kinds of a point are the patterns below; none of them reads a comment. --at lists those of a
commit, without checking it out; --count prints how many there are of each kind.
"""
import collections, os, re, subprocess, sys

TOP = os.path.dirname(os.path.dirname(os.path.abspath(__file__)))


def sources(commit):
    """Each .rt file under crates/*/src: its name and text."""
    if commit:
        names = subprocess.run(['git', 'ls-tree', '-r', '--name-only', commit, 'crates'], cwd=TOP, text=True, capture_output=True).stdout.split()
        read = lambda n: subprocess.run(['git', 'show', f'{commit}:{n}'], cwd=TOP, text=True, capture_output=True).stdout
    else:
        names = subprocess.run(['git', 'ls-files', 'crates'], cwd=TOP, text=True, capture_output=True).stdout.split()
        read = lambda n: open(os.path.join(TOP, n)).read()
    for n in sorted(names):
        if re.match(r'crates/\w+/src/.*\.rt$', n) and (commit or os.path.exists(os.path.join(TOP, n))):
            yield n[len('crates/'):], read(n)


def bare(text):
    """The text without its comments, line for line."""
    return re.sub(r'//[^\n]*', '', text)


def block(text, at):
    """Where the braces that open at or behind a place close."""
    depth = 0
    for i in range(text.index('{', at), len(text)):
        depth += {'{': 1, '}': -1}.get(text[i], 0)
        if depth == 0:
            return i + 1
    return len(text)


def line(text, at):
    return text.count('\n', 0, at) + 1


def clauses(text):
    """A function's text behind its parameters up to its body: (its clauses, where its body starts)."""
    m = re.compile(r'\s*(?:(?:requires|ensures)\s*\w*\s*)').match
    at = 0
    found = []
    while True:
        n = m(text, at)
        if not n:
            return found, at
        end = block(text, n.end())
        found.append((n.group().split()[0], ' '.join(text[n.end():end].strip()[1:-1].split())))
        at = end


class Function:
    def __init__(self, file, text, m):
        self.file, self.line, self.name = file, line(text, m.start()), m.group(1)
        depth, i = 0, m.end() - 1
        while True:
            depth += {'(': 1, ')': -1}.get(text[i], 0)
            i += 1
            if depth == 0:
                break
        self.parameters = [' '.join(p.split()) for p in text[m.end():i - 1].split(',') if p.strip()]
        result = re.match(r'\s*(->[^{;]*?)?(?=\s*(?:requires|ensures|\{|where))', text[i:])
        behind = i + (result.end() if result else 0)
        self.clauses, at = clauses(text[behind:])
        start = text.find('{', behind + at)
        end = block(text, start) if start >= 0 else start
        self.body = text[start + 1:end - 1]


def functions(file, text):
    return [Function(file, text, m) for m in re.finditer(r'\bfn\s+(\w+)(?:<[^(]*>)?\s*\(', text)]


def shape(text):
    """The tokens of a text, each name, number and type by the place where it first stands."""
    seen = {}
    def place(t):
        return str(seen.setdefault(t, len(seen))) if re.match(r'\w', t) and t not in KEPT else t
    return [place(t) for t in re.findall(r'\w+|[^\w\s]', text)]


KEPT = {'if', 'else', 'match', 'while', 'for', 'loop', 'return', 'let', 'mut', 'break', 'continue', 'as', 'self', 'Self', 'in', 'true', 'false'}


def enums_and_flags(file, text):
    for m in re.finditer(r'\benum\s+(\w+)(?:<[^{]*>)?\s*\{', text):
        body = text[m.end():block(text, m.start()) - 1]
        variants = re.findall(r'(\w+)\s*(\([^)]*\)|\{[^}]*\})?\s*(?:=[^,]*)?(?:,|$)', body.strip())
        where = (f'{file}:{line(text, m.start())}', m.group(1))
        if any(re.fullmatch(r'\((error::)?Error\)', fields) for _, fields in variants):
            yield ('own Result', *where)
        elif len(variants) == 2 and sum(1 for _, fields in variants if fields) == 1:
            yield ('own Option', *where)
    for m in re.finditer(r'((?:#\[[^\]]*\]\s*)*)(?:pub(?:\(crate\))?\s+)?struct\s+(\w+)(?:<[^{]*>)?\s*\{', text):
        fields = re.findall(r'(\w+)\s*:\s*([^,}]+)', text[m.end():block(text, m.start(2)) - 1])
        if 'repr(C)' not in m.group(1) and len(fields) > 1:
            for name, type_ in fields:
                if type_.strip() == 'bool':
                    yield ('flag with values beside it', f'{file}:{line(text, m.start(2))}', f'{m.group(2)}.{name}')
    for m in re.finditer(r'^(?:pub(?:\(crate\))? )?const (\w+): (u8|u16|u32|u64|usize) = (?:\d|0x)', text, re.M):
        yield ('named number', f'{file}:{line(text, m.start())}', m.group(1))
    for m in re.finditer(r'^\s+\d+(?: \| \d+)* =>', text, re.M):
        yield ('arm of a number', f'{file}:{line(text, m.start())}', m.group().split()[0])


def twins(all_functions, all_types):
    groups = collections.defaultdict(list)
    for kind, entries in (('function', [(f.file, f.line, f.name, ' '.join(f.parameters) + '{' + f.body) for f in all_functions]), ('type', all_types)):
        for file, at, name, text in entries:
            s = shape(text)
            if len(s) >= 24:
                groups[(kind, '', tuple(s))].append((file, at, name))
            elif len(s) >= 14:
                groups[(kind, file.split('/')[0], tuple(s))].append((file, at, name))
    for (kind, _, _), members in groups.items():
        if len(members) > 1:
            first = members[0]
            for file, at, name in members[1:]:
                yield (f'twin {kind}', f'{file}:{at}', f'{name}, as {first[2]} at {first[0]}:{first[1]}')


def loops(f):
    for m in re.finditer(r'\bwhile\s+([^{]*)\{', f.body):
        body = f.body[m.end():block(f.body, m.start())]
        counted = re.findall(r'\b(\w+)\s*[+-]=\s*1;', body)
        kind = 'loop that counts an index' if any(re.search(rf'\b{c}\b', m.group(1)) for c in counted) else 'loop over a place that jumps'
        yield (kind, f'{f.file}:{f.line}', f.name)
    for m in re.finditer(r'\bloop\s*\{', f.body):
        yield ('loop with a break', f'{f.file}:{f.line}', f.name)


def by_hand(f):
    body = ' '.join(f.body.split())
    if re.fullmatch(r'\w+(\.\w+)* as \w+', body):
        yield ('conversion', f'{f.file}:{f.line}', f.name)
    if f.name == 'default' and 'Default' not in f.body:
        yield ('default', f'{f.file}:{f.line}', f.name)
    for m in re.finditer(r'std::num::(wrapping|saturating)_\w+', f.body):
        yield ('arithmetic by a free function', f'{f.file}:{f.line}', f.name)


def repeated(all_functions):
    facts, together = collections.defaultdict(list), collections.defaultdict(list)
    for f in all_functions:
        crate = f.file.split('/')[0]
        for kind, clause in f.clauses:
            if kind == 'requires':
                for fact in {' '.join(x.strip(' ()').split()) for x in clause.split('×')}:
                    facts[(crate, fact)].append(f)
        names = [p for p in f.parameters if ':' in p]
        for i in range(len(names) - 2):
            together[(crate, tuple(re.sub(r"'\w+ ", '', n) for n in names[i:i + 3]))].append(f)
    for (crate, fact), fs in facts.items():
        if len(fs) >= 3:
            yield ('fact in three contracts', f'{fs[0].file}:{fs[0].line}', f'{fact} ({len(fs)} functions of {crate})')
    covered = set()
    for (crate, names), fs in sorted(together.items(), key=lambda e: -len(e[1])):
        key = (crate, tuple(sorted((f.file, f.line) for f in fs)))
        if len(fs) >= 3 and key not in covered:
            covered.add(key)
            yield ('parameters together', f'{fs[0].file}:{fs[0].line}', f'{", ".join(n.split(":")[0] for n in names)} .. ({len(fs)} functions of {crate})')


def lengths(file, text, fs):
    for m in re.finditer(r'\bstruct\s+(\w+)(?:<[^{]*>)?\s*\{', text):
        fields = re.findall(r'(\w+)\s*:\s*([^,}]+)', text[m.end():block(text, m.start()) - 1])
        arrays = [n for n, t in fields if t.strip().startswith('[')]
        counts = [n for n, t in fields if re.search(r'count|len|used|held|places', n) and re.match(r'\s*(u16|usize)', t)]
        if arrays and counts:
            yield ('arrays with a count beside', f'{file}:{line(text, m.start())}', f'{m.group(1)}: {", ".join(arrays)} beside {", ".join(counts)}')
    for f in fs:
        if any(re.search(r':.*\[', p) for p in f.parameters) and any(re.match(r'(\w+_)?(count|len|used): usize', p) for p in f.parameters):
            yield ('slice with a length beside', f'{f.file}:{f.line}', f.name)


def switches(f):
    for p in f.parameters:
        m = re.match(r'(\w+): (bool|u8)$', p)
        if m and re.search(rf'\b(if|match) !?{m.group(1)}\b\s*(\{{|==|&&)', f.body):
            yield (f'{m.group(2)} that says which', f'{f.file}:{f.line}', f'{f.name}({m.group(1)})')


def places(commit):
    everything, types = [], []
    for file, text in sources(commit):
        text = bare(text)
        fs = functions(file, text)
        everything += fs
        for m in re.finditer(r'\b(?:enum|struct)\s+(\w+)(?:<[^{]*>)?\s*\{', text):
            types.append((file, line(text, m.start()), m.group(1), text[m.end():block(text, m.start()) - 1]))
        for p in enums_and_flags(file, text):
            yield (1, *p)
        for p in lengths(file, text, fs):
            yield (6, *p)
        for f in fs:
            for p in loops(f):
                yield (3, *p)
            for p in by_hand(f):
                yield (4, *p)
            for p in switches(f):
                yield (7, *p)
    for p in twins(everything, types):
        yield (2, *p)
    for p in repeated(everything):
        yield (5, *p)


def main():
    args = sys.argv[1:]
    commit = None
    if '--at' in args:
        i = args.index('--at')
        commit = args[i + 1]
        del args[i:i + 2]
    count = '--count' in args
    wanted = {int(a) for a in args if a != '--count'} or set(range(1, 8))
    found = sorted(p for p in places(commit) if p[0] in wanted)
    if count:
        for (point, kind), n in sorted(collections.Counter((p[0], p[1]) for p in found).items()):
            print(point, kind, n, sep='\t')
    else:
        for p in found:
            print(*p, sep='\t')


if __name__ == '__main__':
    main()
