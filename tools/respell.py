#!/usr/bin/env python3
"""Brings the repository's own antt names to today's spelling.

    python3 tools/respell.py           rewrite the checkout in place
    python3 tools/respell.py --list    print the renaming per crate (old -> new) and write nothing

Functions, lemmas, record fields and constructors come to snake_case, and records, data types and facts (functions that
give a Type) to UpperCamelCase. In a lemma's name a dash stays where it joins a name to something, and is an underscore
otherwise. The renaming is worked out from the tree: what is declared in crates/*/specs/*.antt and crates/*/proofs/*.antt
(not in the folders below proofs/, whose names Rattle makes). In each file only those tokens change that the file
declares or imports from these modules, so a name of std with the same spelling stays. In comments a name with humps or
dashes changes wherever it stands, but for a few ordinary words with a dash (ENGLISH); on pages only in backticks.

Other scripts can use Renaming(root).respell_text(text, kind, path).
"""
import os
import re
import sys

# Names that the rules would spell so that two meanings fall together, or badly: (old, module or None) -> new. The
# reason stands beside each.
SPECIAL = {
    # The function longJob is long_job, and the constructor's type speaks of it.
    ('long-job', 'Rattle.argument.specs.Answers'): 'a_long_job',
}

# Words that a dash joins to, as they are names of std's. A part of a lemma's name counts only where the file of the
# lemma imports it.
STD_WORDS = set('''
    length take drop map append replicate sum filter get_or set cond max min add mul sub ltb leb eqb not zip concat head
    reverse fold all any count position insert remove swap slice_get slice_index slice_set slice_range unwrap_or
    is_some is_none is_ok is_err table true false zero suc pred pow div mod rem
'''.split())

# Names of operators, which need no import.
OPERATORS = set('length eqb ltb leb lt le eq ne ge gt true false zero suc cons nil add sub mul'.split())

# Plain words: added to a word with an underscore, whatever the word is.
PLAIN = set('comm assoc refl sym trans intro elim left right mono cong ext bound again only'.split())

# Ordinary words with a dash, which stay in comments even if a lemma should have such a name.
ENGLISH = set('check-only non-empty one-to-one hyper-edge read-only'.split())

# Prefixes of paths that end where Rattle's own names begin.
GENERATED_BASES = {'tie', 'goal'}
GENERATED = re.compile(r'-requires|-init|-preserved|overflow_|returns-')
# What stands behind a call of a function in a proof.
CALLED = re.compile(r'\.(ensures|requires|result|returns)\b')

DELIM = r'\s(){}\[\],;.:`"λ'
TOKEN = re.compile(r'[^%s]+' % DELIM)
MODIFIERS = ('abbrev', 'unfoldable', 'pub')
HUMP = re.compile(r'(?<=[a-z0-9])(?=[A-Z])')


# ── spelling ──

def snake(word):
    """camelCase to snake_case; a word that starts with a capital, or has none, stays."""
    word = word.replace('′', "'")
    if not word or not (word[0].islower() or word[0] == '_'):
        return word
    if word == 'getD':
        return 'get_or'
    return '_'.join(p[0].lower() + p[1:] for p in HUMP.split(word))


def camel(word):
    """dashes, underscores and a small first letter to UpperCamelCase."""
    word = word.replace('′', "'")
    return ''.join(p[:1].upper() + p[1:] for p in re.split(r'[-_]', word))


# ── declarations ──

class Decl:
    def __init__(self, module, name, sort, definition, line):
        self.module, self.name, self.sort, self.definition, self.line = module, name, sort, definition, line
        self.new = name


def split_comment(line):
    """(code, comment) of a line of antt."""
    m = re.search(r'(^|(?<=\s))--(?=\s|$|-)', line)
    return (line[:m.start()], line[m.start():]) if m else (line, '')


def indent(line):
    return len(line) - len(line.lstrip())


def result_of(type_text):
    depth, last = 0, 0
    for i, c in enumerate(type_text):
        if c in '({[':
            depth += 1
        elif c in ')}]':
            depth -= 1
        elif c == '→' and depth == 0:
            last = i + 1
    return type_text[last:].strip()


def declarations(module, text, spec):
    lines = [split_comment(l)[0].rstrip() for l in text.split('\n')]
    out, stack, i = [], [0], 0
    while i < len(lines):
        s = lines[i]
        if not s.strip():
            i += 1
            continue
        ind = indent(s)
        while ind < stack[-1]:
            stack.pop()
        if ind != stack[-1]:
            i += 1
            continue
        j, parts = i + 1, [s.strip()]
        while j < len(lines) and (not lines[j].strip() or indent(lines[j]) > ind):
            if lines[j].strip():
                parts.append(lines[j].strip())
            j += 1
        words = parts[0].split()
        if words[0] == 'module':
            k = i
            while not lines[k].endswith('where'):
                k += 1
            k += 1
            while not lines[k].strip():
                k += 1
            stack.append(indent(lines[k]))
            i = k
            continue
        mods = []
        while words and words[0] in MODIFIERS:
            mods.append(words.pop(0))
        if words and words[0] in ('record', 'data'):
            out.append(Decl(module, words[1], words[0], True, i + 1))
            k = i
            while k < j and not lines[k].endswith('where'):
                k += 1
            inner = None
            for n in range(k + 1, j):
                if not lines[n].strip():
                    continue
                if inner is None:
                    inner = indent(lines[n])
                if indent(lines[n]) == inner:
                    m = re.match(r'\s*(?:pub )?(\S+) :( |$)', lines[n])
                    if m:
                        out.append(Decl(module, m.group(1), 'field' if words[0] == 'record' else 'constructor', False, n + 1))
        elif words and words[0] == 'ruleset':
            out.append(Decl(module, words[1], 'word', False, i + 1))
        elif words and words[0] not in ('use', 'mod', 'unfolding'):
            full = ' '.join(parts)
            for m in mods:
                full = full[len(m):].strip()
            m = re.match(r'(\S+)((?: \{[^}]*\})*) :(?: (.*))?$', full)
            if m:
                fact = re.match(r'\(?Type( |$)', result_of(m.group(3) or ''))
                definition = spec or 'abbrev' in mods or 'unfoldable' in mods or bool(fact)
                out.append(Decl(module, m.group(1), 'fact' if fact else 'word', definition, i + 1))
        i = j
    return out


USE = re.compile(r'\buse (Rattle\.[^\s{]+?|[A-Za-z_][^\s{]*?)\.\{([^}]*)\}')


def imports(text):
    """(module, name, local name) of each import of a text, antt or Rattle."""
    out = []
    for m in USE.finditer(text):
        for item in m.group(2).split(','):
            w = item.split()
            if len(w) == 3 and w[1] == 'as':
                out.append((m.group(1), w[0], w[2]))
            elif len(w) == 1:
                out.append((m.group(1), w[0], w[0]))
    return out


def own_path(module):
    """The file of a module of this repository, or None."""
    p = module.split('.')
    if len(p) == 4 and p[0] == 'Rattle' and p[2] in ('specs', 'proofs'):
        return 'crates/%s/%s/%s.antt' % (p[1], p[2], p[3])
    return None


# ── the renaming ──

class Scope:
    """What the tokens of one file become: bare words, and what stands behind a dot or in front of = in a record."""

    def __init__(self):
        self.bare, self.member, self.kept = {}, {}, set()


class Renaming:
    def __init__(self, root='.'):
        self.root, self.decls, self.texts = root, {}, {}
        self.warnings, self.lems = [], []
        for path in self.files('.antt'):
            self.texts[path] = open(os.path.join(root, path), encoding='utf-8').read()
        for path in self.files('.rt'):
            self.texts[path] = open(os.path.join(root, path), encoding='utf-8').read()
        for path, text in self.texts.items():
            p = path.split('/')
            if path.endswith('.antt') and len(p) == 4 and p[2] in ('specs', 'proofs'):
                module = 'Rattle.%s.%s.%s' % (p[1], p[2], p[3][:-5])
                for d in declarations(module, text, p[2] == 'specs'):
                    self.decls.setdefault(path, []).append(d)
        self.by_key = {}
        for path, ds in self.decls.items():
            for d in ds:
                if d.sort != 'field':
                    self.by_key.setdefault((d.module, d.name), d)
        self.imports = {p: imports(self.strip(p)) for p in self.texts}
        self.spell()
        self.scopes = {p: self.scope(p) for p in self.texts}

    def files(self, ending):
        out = []
        for top, dirs, names in os.walk(os.path.join(self.root, 'crates')):
            dirs[:] = sorted(d for d in dirs if d not in ('out', 'must-fail', 'target'))
            for n in sorted(names):
                if n.endswith(ending):
                    p = os.path.relpath(os.path.join(top, n), self.root)
                    if ending == '.rt' or '/specs/' in p or '/proofs/' in p:
                        out.append(p)
        return sorted(out)

    def strip(self, path):
        """A text without its comments."""
        text = self.texts[path]
        if path.endswith('.rt'):
            return re.sub(r'(^|\s)//.*', '', text)
        return '\n'.join(split_comment(l)[0] for l in text.split('\n'))

    def find(self, module, name, seen=()):
        """The declaration that an import names, through modules that pass it on; None for a name of others."""
        d = self.by_key.get((module, name))
        if d:
            return d
        path = own_path(module)
        if path not in self.texts or module in seen:
            return None
        for m, n, local in self.imports[path]:
            if local == name and self.passed_on(path, m, n):
                return self.find(m, n, seen + (module,))
        return None

    def passed_on(self, path, module, name):
        return True

    # new spellings

    def spell(self):
        definitions = {}
        for ds in self.decls.values():
            for d in ds:
                if d.definition:
                    definitions[d.name] = d
        self.facts = {d.name: camel(d.name) for ds in self.decls.values() for d in ds
                      if d.sort in ('record', 'data', 'fact')}
        spelled = {self.plain_new(d) for d in definitions.values()}
        compound = {n for n in spelled if '_' in n or n[:1].isupper()}

        # Where a dash of a lemma's name stays, by the files that declare the lemma.
        dashes = {}
        for path, ds in self.decls.items():
            near = {self.plain_new(d) for d in ds if d.definition}
            for m, n, local in self.imports[path]:
                d = self.find(m, n)
                if d:
                    if d.definition:
                        near.add(self.plain_new(d))
                elif local in STD_WORDS:
                    near.add(local)
            for d in ds:
                if d.sort == 'word' and not d.definition and '-' in d.name:
                    parts = [self.part(p) for p in d.name.split('-')]
                    keep = []
                    for a, b in zip(parts, parts[1:]):
                        keep.append(self.joined(a, b, near, compound))
                    old = dashes.get(d.name)
                    dashes[d.name] = [x or y for x, y in zip(old, keep)] if old else keep
        for ds in self.decls.values():
            for d in ds:
                special = SPECIAL.get((d.name, d.module), SPECIAL.get((d.name, None)))
                if special:
                    d.new = special
                elif d.name in dashes and d.sort == 'word' and not d.definition:
                    parts = [self.part(p) for p in d.name.split('-')]
                    d.new = parts[0]
                    for keep, p in zip(dashes[d.name], parts[1:]):
                        d.new += ('-' if keep else '_') + p
                else:
                    d.new = self.plain_new(d)
        self.lemmas_of_functions()
        self.fields = {}
        for ds in self.decls.values():
            for d in ds:
                if d.sort == 'field' and d.new != d.name:
                    if self.fields.setdefault(d.name, d.new) != d.new:
                        self.warnings.append('%s: the field %s has two new names' % (d.module, d.name))
        self.names = {d.new for ds in self.decls.values() for d in ds}
        self.all = {}
        for ds in self.decls.values():
            for d in ds:
                if d.new != d.name:
                    self.all.setdefault(d.name, set()).add(d.new)

    def visible(self, path):
        """What a file declares, fields left out, and imports of this repository under its own name."""
        out = [d for d in self.decls.get(path, []) if d.sort != 'field']
        for m, n, local in self.imports[path]:
            d = self.find(m, n)
            if d and local == n:
                out.append(d)
        return out

    def lemmas_of_functions(self):
        """A lemma that would have the name of a function beside it gets _lem."""
        for path in self.texts:
            groups = {}
            for d in self.visible(path):
                groups.setdefault(d.new, {})[(d.module, d.name)] = d
            for new, ds in groups.items():
                if len({d.name for d in ds.values()}) > 1 and any(d.definition for d in ds.values()):
                    for d in ds.values():
                        if d.sort == 'word' and not d.definition:
                            d.new = new + '_lem'
                            self.lems.append(d)

    def part(self, p):
        return self.facts[p] if p in self.facts else snake(p)

    def plain_new(self, d):
        if d.sort in ('record', 'data', 'fact'):
            return camel(d.name)
        return '_'.join(snake(p) for p in d.name.split('-')) if '-' in d.name.strip('-') else snake(d.name)

    @staticmethod
    def joined(a, b, near, compound):
        if a[:1].isupper() and len(a) > 1 or b[:1].isupper() and len(b) > 1:
            return True
        if a in PLAIN or b in PLAIN:
            return False
        # Parts that were joined by an underscore count by the words at the dash, so that a second run changes nothing.
        u, v = a.split('_'), b.split('_')
        ends = ['_'.join(u[k:]) for k in range(len(u))] + ['_'.join(v[:k]) for k in range(1, len(v) + 1)]
        return any(x in near or x in compound or x in OPERATORS for x in ends)

    # scopes

    def scope(self, path):
        s = Scope()
        s.member = dict(self.fields)
        for d in self.decls.get(path, []):
            if d.sort == 'field':
                continue
            self.bind(s, path, d.name, d.new)
        for m, n, local in self.imports[path]:
            d = self.find(m, n)
            if d is None:
                s.kept.add(local)
            elif local == n:
                self.bind(s, path, n, d.new)
            else:
                # An import under another name: both spellings change, the name of the import in its place only.
                self.bind(s, path, local, camel(local) if d.sort in ('record', 'data', 'fact') else snake(local))
        for d in self.decls.get(path, []):
            if d.sort == 'field':
                s.bare.setdefault(d.name, d.new)
        for k in s.kept:
            if k in s.bare and s.bare[k] != k:
                self.warnings.append('%s: %s is declared here and imported from others' % (path, k))
        # Humps of local names.
        for tok in set(TOKEN.findall(self.strip(path))) if path.endswith('.antt') else ():
            if tok[:1].islower() and HUMP.search(tok) and tok not in s.bare and tok not in s.kept:
                s.bare[tok] = '-'.join(self.part(p) for p in tok.split('-'))
        s.bare = {k: v for k, v in s.bare.items() if k != v}
        return s

    def bind(self, s, path, old, new):
        if s.bare.setdefault(old, new) != new:
            self.warnings.append('%s: %s has two new names, %s and %s' % (path, old, s.bare[old], new))

    # rewriting

    def respell_text(self, text, kind, path=None):
        """The text with its names respelled. kind: antt, rt, clause (antt in code), page (markdown), comment.
        With a path of the checkout the names are those in scope in that file, else all that have one new spelling."""
        scope = self.scopes.get(path) if path else None
        if scope is None:
            scope = Scope()
            scope.member = self.fields
            scope.bare = {k: next(iter(v)) for k, v in self.all.items() if len(v) == 1}
        if kind == 'antt':
            return self.antt(text, scope)
        if kind == 'rt':
            return self.rattle(text, scope)
        if kind == 'clause':
            return self.code(text, scope)
        if kind == 'comment':
            return self.prose(text, scope)
        return re.sub(r'`[^`\n]*`', lambda m: self.quoted(m.group(0), None), text)

    def code(self, text, scope, before=''):
        """antt without comments."""
        out, at, last = [], 0, before
        text_len = len(text)
        for m in re.finditer(r'"(?:[^"\\]|\\.)*"|[^%s]+' % DELIM, text):
            gap = text[at:m.start()]
            out.append(gap)
            at = m.end()
            tok = m.group(0)
            if gap.strip():
                last = gap.strip()[-1]
            if tok.startswith('"'):
                out.append(tok)
                last = '"'
                continue
            start = m.start()
            dotted = start >= 2 and text[start - 1] == '.' and not text[start - 2].isspace() and text[start - 2] != '.'
            if GENERATED.search(tok):
                new = tok
            elif dotted:
                base = re.search(r'([^%s]+)\.$' % DELIM, text[:start])
                if base and base.group(1) in GENERATED_BASES or CALLED.match(text, at):
                    new = tok
                else:
                    new = scope.member.get(tok, tok)
            elif last in '{;' and re.match(r'\s*=\s', text[at:at + 40]) and tok in scope.member:
                new = scope.member[tok]
            else:
                new = scope.bare.get(tok, tok)
            out.append(new)
            last = tok[-1]
        out.append(text[at:])
        return ''.join(out)

    def antt(self, text, scope):
        # Comments are taken out and put back, so that a record may go over lines with comments between.
        lines = text.split('\n')
        cut = [split_comment(l) for l in lines]
        code = self.uses(('\n'.join(c for c, _ in cut)), scope).split('\n')
        out, head = [], True
        for c, (_, comment) in zip(code, cut):
            if c.strip():
                head = False
            if comment:
                comment = self.glossary(comment, scope) if head else self.prose(comment, scope)
            out.append(c + comment)
        return '\n'.join(out)

    def uses(self, text, scope):
        """antt code, of which an import under another name has two names that change apart."""
        out, at = [], 0
        for m in USE.finditer(text):
            out.append(self.code(text[at:m.start()], scope))
            items = []
            for item in m.group(2).split(','):
                def one(w, module=m.group(1)):
                    d = self.find(module, w)
                    return d.new if d else w
                w = item.split()
                if len(w) == 3 and w[1] == 'as':
                    item = item.replace(' '.join(w), '%s as %s' % (one(w[0]), scope.bare.get(w[2], w[2])))
                elif len(w) == 1:
                    item = item.replace(w[0], one(w[0]))
                items.append(item)
            out.append('use %s.{%s}' % (m.group(1), ','.join(items)))
            at = m.end()
        out.append(self.code(text[at:], scope))
        return ''.join(out)

    def rattle(self, text, scope):
        out, i, n = [], 0, len(text)
        opener = re.compile(r'\b(?:requires|ensures)\b\*?(?: +[A-Za-z_][A-Za-z0-9_]*)?\s*\{')
        while i < n:
            if text.startswith('//', i):
                j = text.find('\n', i)
                j = n if j < 0 else j
                out.append(self.prose(text[i:j], scope))
                i = j
                continue
            if text[i] == '"':
                m = re.compile(r'"(?:[^"\\]|\\.)*"', re.S).match(text, i)
                out.append(m.group(0))
                i = m.end()
                continue
            m = re.compile(r"'(?:[^'\\\n]|\\.[^'\n]*)'").match(text, i)
            if m:
                out.append(m.group(0))
                i = m.end()
                continue
            fresh = i == 0 or not (text[i - 1].isalnum() or text[i - 1] == '_')
            m = fresh and re.compile(r'ghost use [^;]*;').match(text, i)
            if m:
                out.append(self.uses(m.group(0), scope))
                i = m.end()
                continue
            m = fresh and opener.match(text, i)
            if m:
                depth, j = 1, m.end()
                while depth:
                    depth += {'{': 1, '}': -1}.get(text[j], 0)
                    j += 1
                out.append(m.group(0) + self.code(text[m.end():j], scope))
                i = j
                continue
            out.append(text[i])
            i += 1
        return ''.join(out)

    # comments and pages

    def word(self, tok, scope):
        """What a token in prose becomes, by the scope of the file and else by the whole repository."""
        if scope is not None and tok in scope.bare:
            return scope.bare[tok]
        if scope is not None and tok in scope.kept:
            return tok
        if tok in self.all:
            return next(iter(self.all[tok])) if len(self.all[tok]) == 1 else tok
        # A name that the code spells in the new way already, and the prose not yet.
        if tok[:1].islower() and HUMP.search(tok):
            for new in ('-'.join(self.part(p) for p in tok.split('-')), '_'.join(snake(p) for p in tok.split('-'))):
                if new in self.names:
                    return new
        return tok

    def is_name(self, tok):
        """Whether a token in prose can only be a name. No name with dashes that this repository declares stands in its
        comments as an ordinary word, but for those of ENGLISH."""
        return bool(HUMP.search(tok)) or '-' in tok and tok not in ENGLISH

    def quoted(self, text, scope):
        """Text in backticks, in a glossary's column or on a page: every name changes."""
        return TOKEN.sub(lambda m: self.word(m.group(0), scope), text)

    def prose(self, text, scope):
        parts = re.split(r'(`[^`]*`)', text)
        for i, p in enumerate(parts):
            if i % 2:
                parts[i] = self.quoted(p, scope)
            else:
                parts[i] = TOKEN.sub(lambda m: self.word(m.group(0), scope) if self.is_name(m.group(0))
                                     else m.group(0), p)
        return ''.join(parts)

    def glossary(self, comment, scope):
        """A line of a file's head: names, then two blanks, then what they are. The second column keeps its place."""
        m = re.match(r'(--     ?)(?! )(.*?)( {2,}|$)(.*)$', comment)
        if not m:
            return self.prose(comment, scope)
        lead, names, gap, rest = m.groups()
        if not gap:
            # One column, or names and what they are with one blank between.
            k = re.match(r'(?:\S+, )*\S+', names)
            if not k or ',' not in k.group(0) and k.group(0) not in scope.bare:
                return self.prose(comment, scope)
            return lead + self.quoted(names[:k.end()], scope) + self.prose(names[k.end():], scope)
        new = self.quoted(names, scope)
        return lead + new + ' ' * max(2, len(names) + len(gap) - len(new)) + self.prose(rest, scope)

    # clashes

    def bare_tokens(self, path):
        """token -> lines where it stands for itself: not behind a dot, not in front of = in a record, not where a field
        is declared. In a .rt file calls and paths are left out, as functions do not clash with words of clauses."""
        text, out = self.strip(path), {}
        fields = {(d.line, d.name) for d in self.decls.get(path, []) if d.sort == 'field'}
        for m in USE.finditer(text):
            text = text[:m.start()] + re.sub(r'\S+ as ', lambda k: ' ' * len(k.group(0)), m.group(0)) + text[m.end():]
        last = ''
        at = 0
        for m in re.finditer(r'"(?:[^"\\]|\\.)*"|[^%s]+' % DELIM, text):
            gap, tok, i = text[at:m.start()], m.group(0), m.start()
            at = m.end()
            if gap.strip():
                last = gap.strip()[-1]
            before, last = last, tok[-1]
            line = text.count('\n', 0, i) + 1
            if tok.startswith('"') or i >= 2 and text[i - 1] == '.' and not text[i - 2].isspace():
                continue
            if before in '{;' and re.match(r'\s*=\s', text[at:at + 40]) and path.endswith('.antt'):
                continue
            if (line, tok) in fields:
                continue
            if path.endswith('.rt') and (re.match(r'\s*[(<]', text[at:at + 3]) or text[i - 1] == ':' and text[i - 2] == ':'
                                         or text[max(0, i - 3):i] == 'fn '):
                continue
            out.setdefault(tok, []).append(line)
        return out

    def clashes(self):
        """Where a new name is already a token of the file that means something else."""
        out = []
        for path, s in self.scopes.items():
            bare = self.bare_tokens(path)
            news = {}
            for old, new in s.bare.items():
                if old not in bare:
                    continue
                news.setdefault(new, []).append(old)
                if new in bare and s.bare.get(new, new) == new:
                    out.append((path, old, new, bare[new][0], 'stands there already'))
            for new, olds in news.items():
                if len(olds) > 1:
                    out.append((path, ' and '.join(sorted(olds)), new, bare[olds[0]][0], 'fall together'))
            # A field hides a word of its name in the fields behind it.
            ds = self.decls.get(path, [])
            for d in ds:
                if d.sort == 'field':
                    for e in ds:
                        if e.sort == 'field' and e.line >= d.line:
                            record = [x for x in ds if x.sort == 'record' and x.line <= d.line][-1]
                            ends = min([x.line for x in ds if x.line > d.line and x.sort != 'field'] or [10 ** 9])
                            for tok, at in bare.items():
                                if tok != d.name and s.bare.get(tok, tok) == d.new and any(d.line < k < ends for k in at):
                                    out.append((path, tok, d.new, d.line, 'is hidden by the field %s of %s'
                                                % (d.name, record.name)))
                            break
            # Goals have names of Rattle's making.
            if path.count('/') > 3 and path.endswith('.antt'):
                for m in re.finditer(r'^(?:abbrev )?(?:pub )?(\S+) :(?: |$)', self.strip(path), re.M):
                    if m.group(1) in s.bare:
                        out.append((path, m.group(1), s.bare[m.group(1)], 0, 'is a goal of a proof, too'))
        return out

    def pages(self):
        out = ['README.md']
        for folder in ('docs', 'tests'):
            for top, dirs, names in os.walk(os.path.join(self.root, folder)):
                out += [os.path.relpath(os.path.join(top, n), self.root) for n in sorted(names) if n.endswith('.md')]
        return [p for p in out if os.path.exists(os.path.join(self.root, p))]

    def rewrite(self):
        changed = 0
        for path in list(self.texts) + self.pages():
            full = os.path.join(self.root, path)
            old = open(full, encoding='utf-8').read()
            kind = path.rsplit('.', 1)[1]
            new = self.respell_text(old, 'page' if kind == 'md' else kind, None if kind == 'md' else path)
            if new != old:
                open(full, 'w', encoding='utf-8').write(new)
                changed += 1
        return changed

    def report(self):
        for d in self.lems:
            print('lemma of a function: %s: %s -> %s' % (d.module, d.name, d.new), file=sys.stderr)
        for old, news in sorted(self.all.items()):
            if len(news) > 1:
                print('note: %s has the new names %s' % (old, ', '.join(sorted(news))), file=sys.stderr)
        for w in sorted(set(self.warnings)):
            print('warning: ' + w, file=sys.stderr)
        for path, old, new, line, why in self.clashes():
            print('warning: %s:%d: %s -> %s: %s' % (path, line, old, new, why), file=sys.stderr)


def main():
    r = Renaming()
    if '--list' in sys.argv[1:]:
        crates = {}
        for path, ds in r.decls.items():
            crates.setdefault(path.split('/')[1], []).extend(ds)
        for crate, ds in sorted(crates.items()):
            print(crate)
            for pair in sorted({(d.name, d.new) for d in ds if d.name != d.new}):
                print('    %s → %s' % pair)
    else:
        print('%d files changed' % r.rewrite())
    r.report()


if __name__ == '__main__':
    main()
