#!/usr/bin/env python3
"""Brings the definitions, lemmas and ghost fields of specs/ and proofs/ to snake case, as today's Rattle spells them.

usage: python3 tools/snake_case.py [TOP]     once, behind port.py; files are rewritten in place
       python3 tools/snake_case.py --list [TOP]     prints OLD NEW a line and writes nothing

Types and modules, functions of src/, what Rattle makes (goals, labels of steps, fields of what a proof is given) and strings keep their names.
"""
import collections, glob, os, re, sys

LIST = '--list' in sys.argv
ARGS = [a for a in sys.argv[1:] if a != '--list']
TOP = ARGS[0] if ARGS else '.'
os.chdir(TOP)

NAME = r"[^\s(){}\[\],;.:=→λ∷≡×+*/%^≤<>&|`\"]+"
MODIFIERS = r"(?:(?:abbrev|unfoldable|opaque|pub|data|record)\s+)*"
HEAD = re.compile(r"^" + MODIFIERS + r"(" + NAME + r")\s*:(?!=)")
RECORD = re.compile(r"^(?:pub\s+)?(?:record|data)\s+(?:pub\s+)?(" + NAME + r")")
FIELD = re.compile(r"^\s+(?:pub\s+)?(" + NAME + r")\s*:(?!=)")
TOKEN = re.compile(r"«[^»]*»|[A-Za-z_][A-Za-z0-9_'?!-]*[A-Za-z0-9_'?!]|[A-Za-z_]")

# where two names of one file would fall together, the lemma gives way
GIVES_WAY = {
    'all-of': 'all_of_each',
    'bit-xor': 'bit_of_xor',
    'chip-fits': 'chip_does_fit',
    'chip-meant': 'chip_is_meant',
    'decimal-value': 'decimal_has_value',
    'denied-words': 'denied_has_words',
    'given-bytes': 'given_are_bytes',
    'label-meant': 'label_is_meant',
    'uid-part': 'uid_is_part',
}


def snake(name):
    s = re.sub(r"([a-z0-9])([A-Z])", r"\1_\2", name)
    return s.replace('-', '_').lower() if not name[0].isupper() else name


def files(pattern):
    return sorted(glob.glob(pattern, recursive=True))


def specs_and_laws():
    for f in files('crates/*/specs/**/*.antt') + files('crates/*/proofs/*.antt'):
        yield f


def walks():
    top = set(files('crates/*/proofs/*.antt'))
    for f in files('crates/*/proofs/**/*.antt'):
        if f not in top:
            yield f


def declared():
    """The names to turn: {old: kind}, kind 'item' or 'field'."""
    names = {}
    for f in specs_and_laws():
        in_record = False
        modules = []
        for line in open(f, encoding='utf-8'):
            if not line.strip() or line.lstrip().startswith('--'):
                continue
            indent = len(line) - len(line.lstrip())
            while modules and indent <= modules[-1]:
                modules.pop()
            if re.match(r"\s*(pub )?module\b", line):
                modules.append(indent)
                in_record = False
                continue
            if modules and indent == modules[-1] + 2:
                in_record = bool(RECORD.match(line.strip()))
                m = HEAD.match(line.strip())
                if m:
                    names.setdefault(m.group(1), 'item')
                continue
            if not line[0].isspace():
                in_record = bool(RECORD.match(line))
                m = HEAD.match(line)
                if m and not line.startswith('use '):
                    names.setdefault(m.group(1), 'item')
            elif in_record:
                m = FIELD.match(line)
                if m:
                    names[m.group(1)] = 'field' if names.get(m.group(1)) != 'item' else 'both'
    for f in walks():
        for line in open(f, encoding='utf-8'):
            m = re.match(r"^pub (" + NAME + r")\s*:", line)
            if m:
                names.setdefault(m.group(1), 'item')
    return {n: k for n, k in names.items() if snake(n) != n and not n[0].isupper() and '◌' not in n}


ITEMS = declared()
NEW = {n: GIVES_WAY.get(n, snake(n)) for n in ITEMS}


def own(path):
    """A path of this repository's specs or laws, and not one that Rattle makes."""
    p = path.split('.')
    return p[0] == 'Rattle' and len(p) > 2 and os.path.isdir('crates/' + p[1]) and p[2] in ('specs', 'proofs') \
        and 'declared' not in p and p[-1] not in ('Statement', 'Tie', 'Goals', 'Given', 'Lts')


def turn_text(text, aliases, given=True):
    """Turns the names of a piece of antt: not those behind a dot, but a field's and those of a module's alias."""
    out, last = [], 0
    for m in TOKEN.finditer(text):
        t = m.group(0)
        if t not in NEW:
            continue
        before = text[:m.start()]
        if before.endswith('.'):
            root = re.search(r"([A-Za-z_][A-Za-z0-9_'-]*)\.$", before)
            ok = (root and root.group(1) in aliases) or ITEMS[t] in ('field', 'both') \
                or bool(re.search(r"Rattle(\.[A-Za-z_+][A-Za-z0-9_'-]*)*\.$", before))
        else:
            ok = True
        if ok:
            out.append(text[last:m.start()])
            out.append(NEW[t])
            last = m.end()
    out.append(text[last:])
    return ''.join(out)


USE = re.compile(r"^(\s*(?:pub )?(?:ghost )?use )(Rattle[^\s;{]*?)(?:\.\{([^}]*)\})?(\s+as\s+[^\s;]+)?(;?\s*)$", re.S)


def aliases_of(text):
    a = set()
    for m in re.finditer(r"^(?:pub )?(?:ghost )?use (Rattle\.[^\s;{]+?)(?:\s+as\s+([^\s;]+))?;?$", text, re.M):
        if own(m.group(1)):
            a.add(m.group(2) or m.group(1).split('.')[-1])
    return a


def turn_use(line):
    m = USE.match(line)
    if not m:
        return None
    head, path, braces, alias, tail = m.groups()
    if braces is None:
        return line
    if not own(path):
        return line
    turned = re.sub(r"(^|,\s*)([^,\s]+)", lambda k: k.group(1) + NEW.get(k.group(2), k.group(2)), braces)
    return head + path + '.{' + turned + '}' + (alias or '') + tail


def turn_comment(text):
    """In a comment only what stands in backticks, or has a dash or a capital inside as no plain word has."""
    return re.sub(r"`([^`]*)`", lambda m: '`' + turn_text(m.group(1), set()) + '`', text)


def turn_antt(text):
    aliases = aliases_of(text)
    out = []
    for line in text.split('\n'):
        if line.startswith('use ') or line.startswith('pub use '):
            u = turn_use(line)
            out.append(line if u is None else u)
            continue
        code, sep, comment = line.partition('--') if re.match(r"^\s*--", line) else (line, '', '')
        out.append(turn_text(code, aliases) + sep + turn_comment(comment))
    return '\n'.join(out)


def clause_spans(text):
    """The insides of requires { .. } and ensures NAME { .. }, and of ghost items."""
    for m in re.finditer(r"\b(?:requires|ensures)(?:\s+[a-z_0-9]+)?\s*\{", text):
        depth, i = 1, m.end()
        while depth and i < len(text):
            depth += {'{': 1, '}': -1}.get(text[i], 0)
            i += 1
        yield m.end(), i - 1


def turn_rt(text):
    aliases = aliases_of(text.replace('ghost use', 'ghost use'))
    spans = list(clause_spans(text))
    pieces, last = [], 0
    for a, b in spans:
        if a < last:
            continue
        pieces.append((text[last:a], False))
        pieces.append((text[a:b], True))
        last = b
    pieces.append((text[last:], False))
    out = []
    for piece, clause in pieces:
        if clause:
            out.append(turn_text(piece, aliases))
            continue
        lines = piece.split('\n')
        for k, line in enumerate(lines):
            if line.startswith('ghost use '):
                u = turn_use(line)
                lines[k] = line if u is None else u
            elif '//' in line:
                code, sep, comment = line.partition('//')
                lines[k] = code + sep + turn_comment(comment)
        out.append('\n'.join(lines))
    return ''.join(out)


def turn_edit(text):
    """A must-fail edit: what is code of src/ as code, else as antt; what stands behind # as a comment whose names have dashes."""
    out, antt = [], False
    for line in text.split('\n'):
        if line.startswith('file:'):
            antt = line.strip().endswith('.antt')
            out.append(line)
        elif line.startswith('#'):
            out.append(turn_text(line, set()))
        elif line.startswith(('old:', 'new:')):
            kind, rest = line[:4], line[4:]
            out.append(kind + (turn_antt(rest) if antt else turn_rt(rest)))
        else:
            out.append(line)
    return '\n'.join(out)


def turn_page(text):
    """A page of docs/: what stands in backticks."""
    return re.sub(r"`([^`\n]*)`", lambda m: '`' + turn_text(m.group(1), set()) + '`', text)


def collisions():
    """Files in which two names would fall together."""
    bad = collections.defaultdict(set)
    for f in files('crates/*/specs/**/*.antt') + files('crates/*/proofs/**/*.antt') + files('crates/*/src/*.rt'):
        text = open(f, encoding='utf-8').read()
        if f.endswith('.rt'):
            text = '\n'.join(text[a:b] for a, b in clause_spans(text)) + '\n'.join(l for l in text.split('\n') if l.startswith('ghost use'))
        seen = collections.defaultdict(set)
        for m in TOKEN.finditer(text):
            t = m.group(0)
            if text[max(0, m.start() - 1):m.start()] == '.' and ITEMS.get(t) != 'field':
                continue
            seen[NEW.get(t, t)].add(t)
        for n, old in seen.items():
            if len(old) > 1:
                bad[tuple(sorted(old))].add(f)
    return bad


if LIST:
    for n in sorted(NEW):
        print(n, NEW[n], ITEMS[n])
    for old, where in sorted(collisions().items()):
        print('FALL TOGETHER', *old, 'in', *sorted(where)[:6], len(where))
    sys.exit()

turned = 0
jobs = [(f, turn_antt) for f in files('crates/*/specs/**/*.antt') + files('crates/*/proofs/**/*.antt')] \
    + [(f, turn_rt) for f in files('crates/*/src/**/*.rt')] + [(f, turn_edit) for f in files('crates/*/must-fail/*.edit')] \
    + [(f, turn_page) for f in files('docs/**/*.md') + ['README.md']]
texts = [(f, turn, open(f, encoding='utf-8').read()) for f, turn in jobs]
for f, turn, text in texts:
    new = turn(text)
    if new != text:
        turned += 1
        with open(f, 'w', encoding='utf-8') as o:
            o.write(new)
print(f'snake_case: {len(NEW)} names, {turned} files')
