"""The mistakes that mutants.py tries: where they can be put, and what the code is then."""
import os, re

from mutants_code import Code, Types, closing, ends_operand, parts, type_text

ROOT = os.path.dirname(os.path.dirname(os.path.abspath(__file__)))

SWAPS = {
    '+': ['-'], '-': ['+'], '*': ['+'], '/': ['%', '*'], '%': ['/'], '+=': ['-=', '='], '-=': ['+=', '='],
    '<': ['<=', '>='], '<=': ['<', '>'], '>': ['>=', '<='], '>=': ['>', '<'], '==': ['!='], '!=': ['=='],
    '&': ['|'], '|': ['&'], '&&': ['||'], '||': ['&&'],
}


class Mistakes:
    def __init__(self, code, path, text, near):
        self.code, self.types, self.path, self.text, self.near = code, Types(code), path, text, near
        self.found = []

    def add(self, kind, at, end, new):
        old = self.text[at:end]
        if new != old:
            self.found.append((self.path, self.function, kind, at, end, new))

    def body(self, f):
        self.function, self.toks = f.name, f.body
        for i, t in enumerate(self.toks):
            self.operator(i, t)
            self.number(i, t)
            self.call(i, t)
            self.callee(i, t)
            self.dropped(i, t)
            self.condition(i, t)
        self.names(f)

    def operator(self, i, t):
        before, after = self.toks[i - 1] if i else None, self.toks[i + 1] if i + 1 < len(self.toks) else None
        if t.text in SWAPS and before and ends_operand(before) and not (t.text == '&' and after.text == 'mut'):
            for new in SWAPS[t.text]:
                self.add('operator', t.at, t.end, new)
        elif t.text == '!':
            self.add('not', t.at, t.end, '')
        elif t.text in ('true', 'false'):
            self.add('truth', t.at, t.end, 'false' if t.text == 'true' else 'true')

    def number(self, i, t):
        if t.kind == 'number' and not (i and self.toks[i - 1].text == '.'):
            suffix = '' if t.text.startswith('0x') else re.search(r'(u\w+)?$', t.text).group()
            digits = t.text[:len(t.text) - len(suffix)].replace('_', '')
            value = int(digits, 16 if digits.startswith('0x') else 10)
            for new in (value + 1, value - 1):
                if new >= 0:
                    self.add('number', t.at, t.end, (hex(new) if digits.startswith('0x') else str(new)) + suffix)
        elif t.kind == 'char' and len(t.text) == 4:
            self.add('number', t.at, t.end, "b'%s'" % chr(ord(t.text[2]) + 1))
        elif t.kind == 'text':
            inside = re.findall(r'\\.|.', t.text[2:-1])
            if inside == ['\\n']:
                self.add('text', t.at, t.end, 'b" "')
            elif len(inside) > 1:
                self.add('text', t.at, t.end, 'b"%s"' % ''.join(inside[:-1]))
                self.add('text', t.at, t.end, 'b"%s"' % ''.join(c if c[0] == '\\' else c.swapcase() for c in inside))

    def field(self, i, t, now):
        """Another field of the same type, or of another type whose number is taken at once."""
        toks = self.toks
        if t.kind != 'name' or not i or toks[i - 1].text != '.' or toks[i + 1].text == '(':
            return
        start = i - 2
        while start > 1 and toks[start - 1].text == '.':
            start -= 2
        fields = self.code.structs.get(self.types.chain(toks[start:i - 1], now), [])
        own = dict(fields).get(t.text)
        taken = toks[i + 1].text == '.' and toks[i + 2].text == '0'
        for name, type_ in fields:
            if name != t.text and (type_ == own or taken and self.code.structs.get(type_, [('', '')])[0][0] == '0'):
                self.add('field', t.at, t.end, name)

    def call(self, i, t):
        """Two operands swapped, where the parameters have one type."""
        if t.kind != 'name' or i + 1 == len(self.toks) or self.toks[i + 1].text != '(':
            return
        path, k = [t.text], i
        while k > 1 and self.toks[k - 1].text == '::':
            path.insert(0, self.toks[k - 2].text)
            k -= 2
        f = self.code.called(path)
        if not f:
            return
        end = closing(self.toks, i + 1)
        given = parts(self.toks[i + 2:end])
        if len(given) != len(f.params):
            return
        for a in range(len(given)):
            for b in range(a + 1, len(given)):
                if f.params[a][1] == f.params[b][1]:
                    x, y = (self.text[g[0].at:g[-1].end] for g in (given[a], given[b]))
                    between = self.text[given[a][-1].end:given[b][0].at]
                    self.add('operands', given[a][0].at, given[b][-1].end, y + between + x)

    def callee(self, i, t):
        """Another function of the file, or brought into it, that takes and returns the same."""
        if t.kind != 'name' or i + 1 == len(self.toks) or self.toks[i + 1].text != '(' or self.toks[i - 1].text in ('::', '.'):
            return
        f = self.code.called([t.text])
        for name in sorted(self.near):
            other = self.code.called([name])
            if f and other and name not in (t.text, self.function):
                if [p[1] for p in f.params] == [p[1] for p in other.params] and f.returns == other.returns:
                    self.add('callee', t.at, t.end, name)

    def dropped(self, i, t):
        """A statement left out, or a rule that is not asked: an `if` whose block returns."""
        before = self.toks[i - 1].text if i else None
        if before not in (';', '{', '}') or t.text in ('let', '}', '{', 'while', 'loop', 'match') or t.kind not in ('name', 'label'):
            return
        if t.text == 'if':
            open_ = next(k for k in range(i, len(self.toks)) if self.toks[k].text == '{' and not self.literal(k))
            end = closing(self.toks, open_)
            after = self.toks[end + 1].text if end + 1 < len(self.toks) else ''
            if self.toks[open_ + 1].text == 'return' and after not in ('else', '}'):
                self.add('left out', t.at, self.toks[end].end, '')
            return
        depth = 0
        for k in range(i, len(self.toks)):
            text = self.toks[k].text
            depth += (text in ('(', '[', '{')) - (text in (')', ']', '}'))
            if depth < 0 or (text == '=>' and depth == 0):
                return
            if text == ';' and depth == 0:
                if not any(x.text == '{' and not self.literal(i + n) for n, x in enumerate(self.toks[i:k])):
                    self.add('left out', t.at, self.toks[k].end, '')
                return

    def literal(self, k):
        """The brace at k belongs to a struct or a variant: a name with a capital stands before it."""
        return self.toks[k].text == '{' and k > 0 and self.toks[k - 1].kind == 'name' and self.toks[k - 1].text[0].isupper()

    def pattern(self, k):
        """The braces at k are a pattern: `=>` or `=` follows."""
        after = closing(self.toks, k) + 1
        return after < len(self.toks) and self.toks[after].text in ('=>', '=')

    def condition(self, i, t):
        if t.text not in ('if', 'while') or self.toks[i + 1].text == 'let':
            return
        # up to the block, or of an arm's condition up to its answer
        open_ = next(k for k in range(i, len(self.toks)) if self.toks[k].text == '=>' or self.toks[k].text == '{' and not self.literal(k))
        said = self.toks[i + 1:open_]
        at, end = said[0].at, said[-1].end
        if not any(x.text in ('<', '<=', '>', '>=', '==', '!=') for x in said) and said[0].text != '!':
            self.add('not', at, end, '!' + self.text[at:end])
        if t.text == 'while' and said[-1].kind == 'name' and said[-2].text in ('<', '<='):
            self.add('bound', said[-1].at, end, said[-1].text + ' - 1')
            self.add('bound', said[-1].at, end, said[-1].text + ' + 1')

    def names(self, f):
        """Another local of the same type."""
        scopes, later, toks = [dict(f.params)], {}, self.toks
        self.mutable = {toks[i + 1].text for i, t in enumerate(toks) if t.text == 'mut' and toks[i - 1].text == 'let'}
        for i, t in enumerate(toks):
            for name, type_ in later.pop(i, []):
                scopes[-1][name] = type_
            if t.text == '{':
                scopes.append({})
            elif t.text == '}':
                scopes.pop()
            now = {}
            for s in scopes:
                now.update(s)
            if t.text == 'let' and toks[i - 1].text not in ('if', 'while'):
                self.let(i, now, later)
            if self.literal(i) and self.pattern(i):
                for name, type_ in self.bound(i):
                    # in scope from the arm or block on, and as far as this simple reading goes to the end of the block around it
                    later.setdefault(closing(toks, i) + 1, []).append((name, type_))
            self.field(i, t, now)
            if t.kind == 'name' and t.text in now:
                self.use(i, t, now)

    def let(self, i, now, later):
        toks = self.toks
        k = i + 2 if toks[i + 1].text == 'mut' else i + 1
        name = toks[k].text
        depth, end, eq = 0, k, None
        while not (toks[end].text == ';' and depth == 0):
            depth += (toks[end].text in ('(', '[', '{')) - (toks[end].text in (')', ']', '}'))
            if toks[end].text == '=' and depth == 0 and eq is None:
                eq = end
            end += 1
        if toks[k + 1].text == ':':
            type_ = type_text(toks[k + 2:eq])
        else:
            type_ = self.types.of(toks[eq + 1:end], now)
        later.setdefault(end, []).append((name, 'usize' if type_ in (None, 'int') else type_))

    def bound(self, k):
        """The names that the pattern with braces at k binds."""
        toks, end = self.toks, closing(self.toks, k)
        enum = toks[k - 3].text if toks[k - 2].text == '::' else None
        fields = dict(self.code.variants.get((enum, toks[k - 1].text), self.code.structs.get(toks[k - 1].text, [])))
        for p in parts(toks[k + 1:end]):
            if p[-1].text != '_':
                yield p[-1].text, fields.get(p[0].text)

    def use(self, i, t, now):
        toks = self.toks
        before, after = toks[i - 1].text, toks[i + 1].text if i + 1 < len(toks) else ''
        if before in ('.', '::', 'let', 'mut') and not (before == 'mut' and toks[i - 2].text == '&') or after in ('::', '('):
            return
        # inside the braces of a literal: a field's name, or a field and a local in one word
        depth, short = 0, False
        for k in range(i - 1, -1, -1):
            depth += (toks[k].text in (')', ']', '}')) - (toks[k].text in ('(', '[', '{'))
            if depth < 0:
                if self.literal(k):
                    if self.pattern(k) or after == ':':
                        return
                    short = before in ('{', ',') and after in (',', '}')
                break
        set_ = after in ('=', '+=', '-=')
        for other, type_ in now.items():
            if other != t.text and type_ and alike(type_, now[t.text]) and (other in self.mutable or not set_):
                self.add('name', t.at, t.end, f'{t.text}: {other}' if short else other)


def alike(a, b):
    return b and a.replace('&mut', '&') == b.replace('&mut', '&')


def mistakes_of(crate):
    code, texts = Code(), {}
    for folder in sorted(os.listdir(os.path.join(ROOT, 'crates'))):
        src = os.path.join(ROOT, 'crates', folder, 'src')
        for name in sorted(os.listdir(src)):
            if name.endswith('.rt'):
                text = open(os.path.join(src, name), encoding='utf-8').read()
                code.read(folder, text)
                if folder == crate:
                    texts[os.path.join('crates', crate, 'src', name)] = text
    found = []
    for path, text in texts.items():
        bodies, constants = code.read(crate, text)
        m = Mistakes(code, path, text, {f.name for f in bodies} | set(code.uses))
        for f in bodies:
            m.body(f)
        for c in constants:
            m.function, m.toks = c.name, c.body
            for i, t in enumerate(c.body):
                m.number(i, t)
        found += m.found
    once = {}
    for path, function, kind, at, end, new in found:
        text = texts[path]
        once.setdefault(text[:at] + new + text[end:] + path, Mistake(path, text, function, kind, at, end, new))
    return list(once.values())


class Mistake:
    def __init__(self, path, text, function, kind, at, end, new):
        self.path, self.function, self.kind = path, function, kind
        self.changed = text[:at] + new + text[end:]
        self.line = text.count('\n', 0, at) + 1
        start, stop = text.rfind('\n', 0, at) + 1, text.find('\n', end)
        squeeze = lambda s: ' '.join(s.split())
        self.old = squeeze(text[start:stop])
        self.new = squeeze(text[start:at] + new + text[end:stop]) or '(left out)'

    def name(self):
        return f'{self.path}:{self.function}:{self.kind}'

    def key(self):
        return self.path, self.function, self.old, self.new
