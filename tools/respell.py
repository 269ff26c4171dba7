#!/usr/bin/env python3
"""The repository's own names in the spelling of today: snake case; a dash only where it joins a type to a name; ' for a prime.

    python3 tools/respell.py            the crates: specs, proofs, clauses, comments, must-fail
    python3 tools/respell.py --pages    what stands in backticks in the pages, the Makefile and tools/
    python3 tools/respell.py --check    changes nothing: own imports, must-fail texts, odd names that are left

Run it from the top. A second run changes nothing. Resolution is by file: a word is respelled only where the file defines it,
imports it from an own module, or where it is a field that an own record defines.
"""
import collections
import glob
import os
import re
import sys

# Where the plain rule's name is taken, by another name of the module or in a file that sees both.
# A lemma that would have its function's name ends in _lem (CONTRACT_STYLE.md, "Names", 3): module, then its lemmas.
LEMMAS = """
book.proofs.Formed formed-unit
book_source.proofs.Fields amount-in number-in count-in
book_stretch.proofs.Arms is-used
day.proofs.Owning same-summary
day.proofs.Turning formed-agenda
day_entries.proofs.Worked live-from
layout.proofs.Labels label-at kind-at
layout.proofs.Rows row-fields
layout_label.proofs.Texts label-text
reader.proofs.Chosen is-mfrr
reader.proofs.Judging is-bad
reader.proofs.Locating answer_at
reader_accent.proofs.Table accent-field
reader_fill.proofs.Gradients value-with no-triple
reader_fill.proofs.Records record-with
reader_line.proofs.Heads is-printed
reader_line.proofs.Tries value-span
reader_row.proofs.Fields text_at
reader_theorems.proofs.Held room_of
reader_theorems.proofs.Validity good_of
reader_walk.proofs.Walking marks-of
record_check.proofs.Cells cells-of
report_brief.proofs.Sizes six-of
saved.proofs.Heading unit-at unit-read
saved_lines.proofs.Meeting value_in
saved_theorems.proofs.Runs read_back
text.proofs.Trims skip-end
text_keyline.proofs.Values whole_in
text_lines.proofs.Allowed plain-run line-run
text_lines.proofs.Columns column-at
text_lines.proofs.Spots lines-in
text_lines.proofs.Steps of-line
times.proofs.Theorems is-market in-file in-sheet
times_sheet.proofs.Sheets sheet-part is-line is-number unit-line number-line
transfer.proofs.Small ca-of ioa-of
transfer.proofs.Turns too_long
writer.proofs.normalise.Proof all-written
writer_form.proofs.Columns text_at
writer_form.proofs.Texts text_at
writer_row.proofs.Rows value-text
writer_theorems.proofs.Back row-in
"""

# (module, old) -> new
CHOSEN = {
    ('Rattle.plan_row.proofs.Addresses', 'kept_row'): 'row_of_key',
    ('Rattle.text_lines.proofs.Spots', 'row-in'): 'text_row_in',
    ('Rattle.record.proofs.Fields', 'value-at'): 'field_value_at',
    # bound in one file only
    ('Rattle.demands.proofs.Listed', 'is-own'): 'is_own_so',
    ('Rattle.saved.proofs.Heading', 'is-unit'): 'is_unit_so',
    ('Rattle.transfer.proofs.Turns', 'in-turn'): 'in_turn_so',
}
for line in LEMMAS.split('\n'):
    for word in line.split()[1:]:
        CHOSEN['Rattle.' + line.split()[0], word] = word.replace('-', '_') + '_lem'

# fields of records that would have the name of the function which they speak of
FIELDS = {
    'is-filled': 'is_filled_so', 'is-command': 'is_command_so', 'is-revocation': 'is_revocation_so', 'is-own': 'is_own_so',
    'is-valid': 'is_valid_so', 'in-turn': 'in_turn_so', 'could-come': 'could_come_iff', 'could-strike': 'could_strike_iff',
}

RESERVED = set("""data record deriving module where use mod pub package open as unfoldable abbrev axiom unfold unfolding ruleset mutual
infix infixl infixr elim let in do Type coe fcoe tcoe hcom com search omega grind simp rw cc assumption ground first_of hlevel""".split())

SEPARATORS = set('(){}.;,@"«»')


def tokens(s):
    "(kind, text, start): kinds n name, p mark, s text in quotes, c comment"
    out, i, n = [], 0, len(s)
    while i < n:
        c = s[i]
        if c.isspace():
            i += 1
            continue
        j = i
        if c == '"':
            j += 1
            while j < n and s[j] != '"':
                j += 2 if s[j] == '\\' else 1
            j += 1
            kind = 's'
        elif c in SEPARATORS:
            j, kind = i + 1, 'p'
        else:
            while j < n and not s[j].isspace() and s[j] not in SEPARATORS:
                j += 1
            kind = 'n'
            if s.startswith('--', i):
                j = s.find('\n', i)
                j = n if j < 0 else j
                kind = 'c'
        out.append((kind, s[i:j], i))
        i = j
    return out


def capital(part):
    return 'A' <= part[:1] <= 'Z'


def snake(part):
    part = re.sub(r"([a-z0-9₀-₉'])([A-Z])", r'\1_\2', part)
    part = re.sub(r'([A-Z])([A-Z][a-z])', r'\1_\2', part)
    return ''.join(c.lower() if 'A' <= c <= 'Z' else c for c in part)


def rule(name):
    if '◌' in name or name in ('-', '→', '='):
        return name
    name = name.replace('′', "'")
    parts = name.split('-')
    if not all(parts) or not re.search(r'\w', name):
        return name
    new = parts[0] if capital(parts[0]) else snake(parts[0])
    for before, part in zip(parts, parts[1:]):
        new += ('-' if capital(before) or capital(part) else '_') + (part if capital(part) else snake(part))
    return new


def odd(name):
    return rule(name) != name


def field_name(name):
    return FIELDS.get(name) or rule(name)


def module_of(path):
    "crates/x/proofs/a/B.antt -> Rattle.x.proofs.a.B"
    return 'Rattle.' + path[len('crates/'):-len('.antt')].replace('/', '.')


DEF = re.compile(r'^([ \t]*)((?:(?:pub|abbrev|unfoldable|pattern|axiom)\s+)*)([^\s(){}.;,@"«»]+)((?:\s+\{[^}]*\})?)\s+:(?=\s|$)')
BLOCK = re.compile(r'^([ \t]*)((?:pub |unfoldable |abbrev )*)(data|record)\s+([^\s(){}]+)(?!.*\{.*=)')


def comment_out(s):
    "the text with its comments blanked"
    b = list(s)
    for k, t, i in tokens(s):
        if k == 'c':
            b[i:i + len(t)] = ' ' * len(t)
    return ''.join(b)


class Source:
    def __init__(self, path):
        self.path, self.module = path, module_of(path)
        self.proof = os.path.basename(path) == 'Proof.antt'
        self.text = open(path, encoding='utf-8').read()
        self.tokens = tokens(self.text)
        self.defs, self.fields, self.sigs, self.types = {}, set(), {}, set()
        self.read_defs()
        self.imports = imports(self.text)

    def read_defs(self):
        lines = comment_out(self.text).split('\n')
        block = None
        for k, line in enumerate(lines):
            indent = len(line) - len(line.lstrip())
            if line.strip() and block and indent <= block[1]:
                block = None
            m = BLOCK.match(line)
            if m and re.search(r'\bwhere(\s|$)', ' '.join(lines[k:k + 4])) and not line.strip().startswith(('record {', 'record{')):
                block = (m[3], len(m[1]))
                self.defs[m[4]] = m[3]
                self.types.add(m[4])
                continue
            m = DEF.match(line)
            names = [m[3]] if m else []
            if block and not m:
                g = re.match(r'^\s+((?:[^\s(){}.;,@"«»:]+\s+)+):\s', line)
                names = g[1].split() if g else []
            for name in names:
                if name in (':', '→'):
                    continue
                sig = line[m.end():] if m else line.split(':', 1)[1]
                j = k + 1
                while j < len(lines) and lines[j].strip() and len(lines[j]) - len(lines[j].lstrip()) > indent:
                    sig += ' ' + lines[j].strip()
                    j += 1
                kind = {'data': 'constructor', 'record': 'field'}.get(block[0]) if block else 'definition'
                self.defs.setdefault(name, kind)
                self.sigs.setdefault(name, []).append(sig.strip())
                if kind == 'field':
                    self.fields.add(name)
        for a, b in zip(self.tokens, self.tokens[1:]):
            if a[1] == 'let' and a[0] == 'n' and b[0] == 'n' and b[1] not in ('(',):
                self.defs.setdefault(b[1], 'let')


USE = re.compile(r'(?:^|(?<=\s))use\s+(?=[A-Za-z])')


def imports(text):
    "[(module path, name, as or None, start)] of `use M.{a, N.b as c};`; [(path, None, alias, start)] of `use M as x`"
    out, b = [], comment_out(text)
    for m in re.finditer(r'^((?:pub |unfoldable |package |ghost )*)use ([^\n]*)', b, re.M):
        ts = tokens(m[2])
        base, k = [], 0
        while k < len(ts) and ts[k][0] == 'n' and ts[k][1] not in ('as', ';'):
            base.append(ts[k][1])
            k += 1
            if k < len(ts) and ts[k][1] == '.':
                k += 1
                continue
            break
        if k < len(ts) and ts[k][1] == '{':
            k += 1
            path, name = [], None
            while k < len(ts):
                t = ts[k][1]
                if t in (',', '}'):
                    if path:
                        out.append(('.'.join(base + path[:-1]), path[-1], name, 'pub' in m[1]))
                    path, name = [], None
                    if t == '}':
                        break
                elif t == 'as':
                    k += 1
                    name = ts[k][1]
                elif t != '.':
                    path.append(t)
                k += 1
        elif k + 1 < len(ts) and ts[k][1] == 'as':
            out.append(('.'.join(base), None, ts[k + 1][1], 'pub' in m[1]))
        elif base[-1] == '*' or (k < len(ts) and ts[k][1] == '*'):
            out.append(('.'.join(base), '*', None, 'pub' in m[1]))
        else:
            out.append(('.'.join(base), None, base[-1], 'pub' in m[1]))
    return out


class World:
    def __init__(self):
        paths = sorted(glob.glob('crates/*/specs/**/*.antt', recursive=True) + glob.glob('crates/*/proofs/**/*.antt', recursive=True))
        self.sources = {module_of(p): Source(p) for p in paths}
        self.own = {line.split(':')[0] for line in open('crates.txt', encoding='utf-8') if ':' in line and not line.startswith('#')}
        self.own |= {os.path.basename(d) for d in glob.glob('crates/*')}
        self.fields = {f for s in self.sources.values() for f in s.fields}
        self.maps = {m: self.module_map(s) for m, s in self.sources.items()}
        self.names = {n for s in self.sources.values() for n in s.defs}
        self.kept_names = {n for s in self.sources.values() for n in s.defs if self.kept(s, n)}
        self.everywhere = collections.defaultdict(set)
        for m in self.maps.values():
            for old, new in m.items():
                self.everywhere[old].add(new)

    def kept(self, s, name):
        "why a name of this file keeps its spelling, or None"
        if '◌' in name:
            return 'operator'
        if s.proof and s.defs.get(name) == 'definition':
            if any(re.match(r'tie\.', sig) for sig in s.sigs[name]):
                return 'answers tie.'
            if re.match(r'(invariant|decreases)-', name):
                return 'invariant, decreases'
            if name.endswith('-spec'):
                return '-spec'
        return None

    def module_map(self, s):
        out = {}
        for name in s.defs:
            if self.kept(s, name):
                continue
            new = CHOSEN.get((s.module, name)) or (field_name(name) if s.defs[name] == 'field' else rule(name))
            if new != name:
                out[name] = new
        return out

    def home(self, path, name):
        "the own module that defines the name that a path and a name bring, or None"
        parts = path.split('.')
        if parts[0] != 'Rattle' or len(parts) < 3 or parts[1] not in self.own:
            return None
        if 'declared' in parts or parts[-1] in ('Statement', 'Tie', 'Goals', 'Given'):
            return None
        while len(parts) > 2:
            m = '.'.join(parts)
            if m in self.sources:
                s = self.sources[m]
                if name is None or name in s.defs or m.count('.') < path.count('.'):
                    return m
                for p, n, a, pub in s.imports:
                    if pub and (a or n) == name:
                        return self.home(p, n) or m
                return m
            parts.pop()
        return None

    def scope(self, text, s=None):
        "(names, aliases): what each bare word of a file becomes, and the own modules behind its aliases"
        names, aliases, foreign = {}, {}, set()
        for path, name, as_, _ in imports(text):
            m = self.home(path, name)
            if name is None:
                if m and (m == path or as_):
                    aliases[as_] = m
                continue
            if m is None:
                foreign.add(as_ or name)
                continue
            if as_:
                if odd(as_):
                    names[as_] = rule(as_)
            elif name in self.maps[m]:
                names[name] = self.maps[m][name]
        if s:
            for name, new in self.maps[s.module].items():
                if names.get(name, new) != new:
                    print('two meanings', s.path, name, names[name], new)
                if name in foreign:
                    print('defined and imported from elsewhere', s.path, name)
                names[name] = new
            for name in binders(s, names, foreign):
                names[name] = CHOSEN.get((s.module, name), rule(name))
        return names, aliases, foreign


def binders(s, names, foreign):
    "odd words that a file binds: in a telescope, after λ, in a pattern"
    T = s.tokens
    out = set()
    for i, (k, t, at) in enumerate(T):
        if k != 'n' or t in names or t in foreign or t in s.defs or t in out or not odd(t):
            continue
        if i and T[i - 1][1] == '.' and T[i - 1][2] + 1 == at:
            continue
        if field_key(T, i):
            continue
        if i + 1 < len(T) and T[i + 1][1] == '.' and i and T[i - 1][1] == 'use':
            continue
        out.add(t)
    if s.proof:
        out = {t for t in out if not re.match(r'(invariant|decreases)-', t)}
    return out


def field_key(T, i):
    "is this word the key of `record { key = ..; key = .. }`, or a name given as `f {key = ..}`"
    if not (i + 1 < len(T) and T[i + 1][1] == '=' and i and T[i - 1][1] in '{;'):
        return False
    return True


def in_record(T, i):
    "does the brace that this key stands in follow `record`"
    depth = 0
    for j in range(i - 1, -1, -1):
        t = T[j][1]
        if T[j][0] != 'p':
            continue
        if t in ')}':
            depth += 1
        elif t in '({':
            if depth == 0:
                return t == '{' and j and T[j - 1][1] == 'record'
            depth -= 1
    return False


REPORT = collections.Counter()


def respell(world, text, names, aliases, proof=False, where='', comments=True, dotted=True):
    T = tokens(text)
    out, last = [], 0
    for i, (k, t, at) in enumerate(T):
        new = t
        if k == 'c':
            new = respell_comment(world, t, names) if comments else t
        elif k == 'n':
            after_dot = i and T[i - 1][1] == '.' and T[i - 1][2] + 1 == at
            if after_dot:
                first = i > 1 and T[i - 2][0] == 'n' and not (i > 2 and T[i - 3][1] == '.')
                q = T[i - 2][1] if i > 1 else ''
                if first and q == 'tie':
                    pass
                elif first and q in aliases and t in world.maps[aliases[q]]:
                    new = world.maps[aliases[q]][t]
                elif t in world.fields and odd(t) and not (proof and step(T, i)):
                    new = field_name(t)
            elif field_key(T, i):
                if in_record(T, i):
                    if t in world.fields:
                        new = field_name(t)
                elif t in names:
                    new = names[t]
            elif in_use_path(T, i):
                pass
            elif t in names:
                new = names[t]
        if new != t:
            REPORT[k] += 1
            out.append(text[last:at] + new)
            last = at + len(t)
    return ''.join(out) + text[last:]


def in_use_path(T, i):
    return i > 0 and T[i - 1][1] == 'use'


STEPS = {'before', 'args', 'ensures', 'requires', 'result'}


def step(T, i):
    "in an old proof: is the word a step of a context, as in `c.before.plain-run.ensures`"
    return i + 2 < len(T) and T[i + 1][1] == '.' and T[i + 2][1] in STEPS


WORD = re.compile(r"[A-Za-z][A-Za-z0-9_'′-]*(?<!-)")


def respell_word(world, t, names, kebab):
    if not odd(t) or (not kebab and '-' in t):
        return t
    if t in names:
        return names[t]
    news = world.everywhere.get(t, ())
    if len(news) == 1:
        return next(iter(news))
    if news:
        print('a comment names one of several:', t, sorted(news))
    return t


def respell_comment(world, comment, names):
    parts = re.split(r'(`[^`\n]*`)', comment)
    for k, part in enumerate(parts):
        quoted = k % 2 == 1
        parts[k] = WORD.sub(lambda m: respell_word(world, m[0], names, quoted), part)
    return ''.join(parts)


def rt_spans(text):
    "[(kind, start, end)]: comments, ghost uses, clauses' insides"
    spans, i, n = [], 0, len(text)
    word = re.compile(r'ghost use\b|\b(requires|ensures|ghost)\b(\s+[a-z_0-9]+)?\s*\{|#\[tactic\(')
    while i < n:
        if text.startswith('//', i):
            j = text.find('\n', i)
            j = n if j < 0 else j
            spans.append(('comment', i, j))
            i = j
        elif text[i] == '"':
            i += 1
            while i < n and text[i] != '"':
                i += 2 if text[i] == '\\' else 1
            i += 1
        elif (m := re.compile(r"b?'(\\.[^']*|[^'\\])'").match(text, i)):
            i = m.end()
        elif (i == 0 or not (text[i - 1].isalnum() or text[i - 1] == '_')) and (m := word.match(text, i)):
            if m[0] == 'ghost use':
                j = text.find(';', i)
                j = n if j < 0 else j
                spans.append(('use', i, j))
                i = j
            else:
                depth, j = 1, m.end()
                while j < n and depth:
                    if text[j] == '"':
                        j += 1
                        while j < n and text[j] != '"':
                            j += 1
                    depth += text[j] in '({'
                    depth -= text[j] in ')}'
                    j += 1
                spans.append(('clause', m.end(), j))
                i = j
        else:
            i += 1
    return spans


def rt_imports(text):
    return '\n'.join(m[0][6:] for m in re.finditer(r'ghost use [^;]*', text))


def respell_rt(world, text, names, aliases):
    out, last = [], 0
    for kind, a, b in rt_spans(text):
        part = text[a:b]
        if kind == 'comment':
            new = respell_comment(world, part, names)
        else:
            new = respell(world, part, names, aliases, comments=False)
        out.append(text[last:a] + new)
        last = b
    return ''.join(out) + text[last:]


def write(path, old, new):
    if old != new:
        open(path, 'w', encoding='utf-8').write(new)
        REPORT['files'] += 1


def rts():
    return sorted(glob.glob('crates/*/src/**/*.rt', recursive=True))


def edits():
    return sorted(glob.glob('crates/*/must-fail/*.edit'))


def read(path):
    return open(path, encoding='utf-8').read()


def edit_file(path, text):
    m = re.search(r'^file: *(.*)$', text, re.M)
    return os.path.join(os.path.dirname(os.path.dirname(path)), m[1].strip())


def collisions(world):
    found = []
    for m, s in sorted(world.sources.items()):
        news = collections.defaultdict(set)
        for name in s.defs:
            news[world.maps[m].get(name, name)].add(name)
        for new, olds in sorted(news.items()):
            if len(olds) > 1:
                found.append(('one module', s.path, sorted(olds), new))
        for old, new in sorted(world.maps[m].items()):
            if new in RESERVED:
                found.append(('reserved', s.path, old, new))
        names, aliases, foreign = world.scope(s.text, s)
        found += seen(world, s.path, s.tokens, names, s.text)
    for path in rts():
        text = read(path)
        names, aliases, _ = world.scope(rt_imports(text))
        T = []
        for kind, a, b in rt_spans(text):
            if kind in ('clause', 'use'):
                T += [(k, t, a + i) for k, t, i in tokens(text[a:b])]
        found += seen(world, path, T, names, text)
        for old, new in sorted(names.items()):
            if re.search(r'\b(const|type|struct|enum|static)\s+' + re.escape(new) + r'\b', text) or \
               re.search(r'[(,]\s*(mut )?' + re.escape(new) + r'\s*:', text):
                found.append(('a word of the Rust text', path, old, new))
    return found


def seen(world, path, T, names, text):
    found = []
    bare = set()
    for i, (k, t, at) in enumerate(T):
        if k != 'n' or (i and T[i - 1][1] == '.' and T[i - 1][2] + 1 == at) or field_key(T, i) and in_record(T, i):
            continue
        bare.add(t)
    by = collections.defaultdict(set)
    for old, new in names.items():
        by[new].add(old)
        if new in bare and names.get(new, new) == new:
            found.append(('seen in the file', path, old, new))
        if new in RESERVED:
            found.append(('reserved', path, old, new))
    for new, olds in by.items():
        if len(olds) > 1:
            found.append(('two names of a file', path, sorted(olds), new))
    return found


def crates(world):
    for s in world.sources.values():
        names, aliases, _ = world.scope(s.text, s)
        write(s.path, s.text, respell(world, s.text, names, aliases, s.proof))
    scopes = {}
    for path in rts():
        text = read(path)
        names, aliases, _ = scopes[path] = world.scope(rt_imports(text))
        write(path, text, respell_rt(world, text, names, aliases))
    by_path = {s.path: s for s in world.sources.values()}
    for path in edits():
        text = read(path)
        target = edit_file(path, text)
        rt = target.endswith('.rt')
        if rt:
            names, aliases, _ = scopes.get(target, ({}, {}, set()))
        else:
            s = by_path[target]
            names, aliases, _ = world.scope(s.text, s)
        lines = text.split('\n')
        for k, line in enumerate(lines):
            if line.startswith('#'):
                lines[k] = respell_comment(world, line, names)
            elif line.startswith(('old:', 'new:')):
                head, part = line[:4], line[4:]
                clause = not rt or re.match(r'\s*(requires|ensures|ghost)\b', part)
                few = names if clause else {a: b for a, b in names.items() if '-' not in a}
                there = {t for _, t, _ in tokens(read(target))}
                few = dict(few)
                for _, t, _ in tokens(part):  # a text that port.py left behind
                    if t not in names and '-' not in t and odd(t) and rule(t) in there:
                        few[t] = rule(t)
                lines[k] = head + respell(world, part, few, aliases)
        write(path, text, '\n'.join(lines))


def page_paths():
    out = sorted(glob.glob('docs/**/*.md', recursive=True)) + ['README.md', 'crates.txt', 'Makefile', 'examples/README.md']
    out += sorted(p for p in glob.glob('tools/*') if os.path.isfile(p) and not p.endswith('.py'))
    return [p for p in out if os.path.exists(p)]


def page_word(world, t):
    "an old name of the repository's, by the names that it has now: so the pages may be turned after the crates"
    if not odd(t) or t in world.kept_names:
        return t
    news = {new for (_, old), new in CHOSEN.items() if old == t} | ({FIELDS[t]} if t in FIELDS else set())
    news = (news or {rule(t)}) & world.names
    if len(news) == 1:
        return next(iter(news))
    if news:
        print('a page names one of several:', t, sorted(news))
    return t


def pages(world):
    for path in page_paths():
        text = read(path)
        md = path.endswith('.md')
        out, fence = [], False
        for line in text.split('\n'):
            if md and line.lstrip().startswith('```'):
                fence = not fence
            elif fence:
                line = WORD.sub(lambda m: page_word(world, m[0]), line)
            else:
                parts = re.split(r'(`[^`\n]*`)', line)
                for k in range(1, len(parts), 2):
                    parts[k] = WORD.sub(lambda m: page_word(world, m[0]), parts[k])
                line = ''.join(parts)
            out.append(line)
        write(path, text, '\n'.join(out))
    print(dict(REPORT))


def main():
    arg = sys.argv[1] if len(sys.argv) > 1 else ''
    world = World()
    if arg == '--collisions':
        for c in collisions(world):
            print(*c, sep='\t')
    elif arg == '--check':
        check(world)
    elif arg == '--pages':
        pages(world)
    else:
        for c in collisions(world):
            print('COLLISION', *c, sep='\t')
        crates(world)
        print(dict(REPORT))


def check(world):
    bad = 0
    texts = [(s.path, s.text) for s in world.sources.values()] + [(p, rt_imports(read(p))) for p in rts()]
    for path, text in texts:
        for p, name, as_, _ in imports(text):
            parts = p.split('.')
            m = world.home(p, name)
            if name in (None, '*'):
                continue
            if parts[0] == 'Rattle' and len(parts) > 2 and parts[1] in world.own and m is None:
                if 'declared' not in parts and parts[-1] not in ('Statement', 'Tie', 'Goals', 'Given'):
                    print('no own module', path, p, name)
                continue
            if m and name not in world.sources[m].defs:
                bad += 1
                print('not defined', path, p, name)
    print('imports not defined:', bad)
    n = 0
    for path in edits():
        text = read(path)
        body = read(edit_file(path, text))
        for line in text.split('\n'):
            if line.startswith('old:'):
                k = body.count(line[4:].strip().replace('\\n', '\n'))
                n += k == 1
                print('edit', path, k)
    print('edits that stand once:', n)
    left = collections.defaultdict(list)
    for s in world.sources.values():
        for name in s.defs:
            if odd(name):
                left[world.kept(s, name) or 'NOT YET'].append(s.path + ':' + name)
            elif '-' in name and re.search(r'\w', name):
                left[world.kept(s, name) or 'a type and a name'].append(s.path + ':' + name)
    for why, names in sorted(left.items()):
        print('left:', why, len(names))
        if not why.startswith(('answers', '-spec', 'invariant')):
            for name in names:
                print('   ', name)
    types = []
    for s in world.sources.values():
        for name, sigs in sorted(s.sigs.items()):
            if s.defs.get(name) == 'definition' and name[:1].islower() and any(re.search(r'(^|→\s*)Type \S+\s*$', x) for x in sigs):
                types.append(s.path + ':' + name)
    print('lower-case names whose result is a Type:', len(types))
    for t in types:
        print('   ', t)


if __name__ == '__main__':
    main()
