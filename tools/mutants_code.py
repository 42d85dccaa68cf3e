"""Reads the code of crates, as far as mutants.py needs it: functions, structs, variants, and the types of locals."""
import re

TOKEN = re.compile(r'''(?P<comment>//[^\n]*)|(?P<text>b"(?:\\.|[^"\\])*")|(?P<char>b'(?:\\.|[^'\\])')|(?P<label>'[a-z_]\w*)
    |(?P<number>(?:0x[0-9A-Fa-f_]+|[0-9][0-9_]*)(?:u8|u16|u32|u64|usize)?)|(?P<name>[A-Za-z_]\w*)
    |(?P<op>\.\.=|->|=>|<=|>=|==|!=|&&|\|\||\+=|-=|\*=|::|\.\.)|(?P<space>\s+)|(?P<sign>.)''', re.X | re.S)
WORDS = {'let', 'mut', 'if', 'else', 'while', 'loop', 'match', 'return', 'break', 'continue', 'as', 'fn', 'in', 'for', 'true', 'false'}


class Token:
    def __init__(self, kind, text, at):
        self.kind, self.text, self.at, self.end = kind, text, at, at + len(text)

    def __repr__(self):
        return self.text


def tokens_of(text):
    found = (Token(m.lastgroup, m.group(), m.start()) for m in TOKEN.finditer(text))
    return [t for t in found if t.kind not in ('comment', 'space')]


def closing(toks, i):
    """Of the bracket at i, where it is closed."""
    pairs = {'(': ')', '[': ']', '{': '}'}
    opens, closes, depth = toks[i].text, pairs[toks[i].text], 0
    for k in range(i, len(toks)):
        if toks[k].kind == 'sign':
            depth += (toks[k].text == opens) - (toks[k].text == closes)
            if depth == 0:
                return k
    raise ValueError('an open bracket')


def parts(toks, sep=','):
    """Split at separators that stand in no bracket."""
    out, now, depth = [], [], 0
    for t in toks:
        if t.kind == 'sign':
            depth += (t.text in '([{') - (t.text in ')]}')
        if t.text == sep and depth == 0:
            out.append(now)
            now = []
        else:
            now.append(t)
    return out + [now] if now else out


def brought_in(toks, before=()):
    """Each name that a `use` line brings in, with the path that leads to it."""
    for k, t in enumerate(toks):
        if t.text == '{':
            for one in parts(toks[k + 1:closing(toks, k)]):
                yield from brought_in(one, [*before, *(x.text for x in toks[:k] if x.kind == 'name')])
            return
    path = [*before, *(t.text for t in toks if t.kind == 'name')]
    yield path, path[-1]


def type_text(toks):
    return ''.join(t.text for t in toks if t.kind != 'label' and t.text != 'pub')


class Function:
    def __init__(self, name, params, returns, body):
        self.name, self.params, self.returns, self.body = name, params, returns, body


class Code:
    """What is declared in the files read so far."""

    def __init__(self):
        self.functions, self.structs, self.variants, self.uses = {}, {}, {}, {}

    def called(self, path):
        """The function of this path, as the file read last would name it."""
        crate = self.uses.get(path[0], path[0] if len(path) > 1 else self.crate)
        return self.functions.get((crate, path[-1])) or self.functions.get((self.crate, path[-1]))

    def read(self, crate, text):
        """Returns the functions with a body, and the values of constants."""
        self.crate = crate
        self.uses = {name: crate if path[0] == 'crate' else path[0]
                     for said in re.findall(r'^use ([^;]+);', text, re.M) for path, name in brought_in(tokens_of(said))}
        toks, i, bodies, constants = tokens_of(text), 0, [], []
        while i < len(toks):
            word = toks[i].text
            if word == 'ghost' and toks[i + 1].text == 'use':
                while toks[i].text != ';':
                    i += 1
            elif word == 'const' and toks[i - 1].text not in ('<', ','):
                eq = next(k for k in range(i, len(toks)) if toks[k].text == '=')
                end = next(k for k in range(eq, len(toks)) if toks[k].text == ';')
                constants.append(Function(toks[i + 1].text, [], type_text(toks[i + 3:eq]), toks[eq + 1:end]))
                i = end
            elif word == 'struct':
                name, open_ = toks[i + 1].text, i + 2
                while toks[open_].text not in ('(', '{', ';'):
                    open_ += 1
                if toks[open_].text != ';':
                    end = closing(toks, open_)
                    fields = [f for f in parts(toks[open_ + 1:end]) if not any(t.text == 'ghost' for t in f)]
                    if toks[open_].text == '(':
                        self.structs[name] = [(str(n), type_text(f)) for n, f in enumerate(fields)]
                    else:
                        self.structs[name] = [self.field(f) for f in fields]
                    i = end
            elif word == 'enum':
                name, end = toks[i + 1].text, closing(toks, i + 2)
                for v in parts(toks[i + 3:end]):
                    self.variants[name, v[0].text] = [self.field(f) for f in parts(v[2:-1])] if len(v) > 1 else []
                i = end
            elif word == 'fn' and toks[i + 1].kind == 'name':
                f, i = self.function(toks, i)
                if f:
                    bodies.append(f)
            i += 1
        return bodies, constants

    def field(self, toks):
        # a method's own value has no type written
        colon = next((k for k, t in enumerate(toks) if t.text == ':'), None)
        if colon is None:
            return toks[-1].text, type_text(toks[:-1]) + 'Self'
        return toks[colon - 1].text, type_text(toks[colon + 1:])

    def function(self, toks, i):
        name, open_ = toks[i + 1].text, i + 2
        while toks[open_].text != '(':
            open_ += 1
        end = closing(toks, open_)
        params = [self.field(p) for p in parts(toks[open_ + 1:end])]
        i, returns = end + 1, []
        if toks[i].text == '->':
            i += 1
            while toks[i].text not in ('requires', 'ensures', 'ghost', '{', ';'):
                returns.append(toks[i])
                i += 1
        while toks[i].text in ('requires', 'ensures', 'ghost'):
            while toks[i].text != '{':
                i += 1
            i = closing(toks, i) + 1
        f = Function(name, params, type_text(returns), None)
        self.functions[self.crate, name] = f
        if toks[i].text != '{':
            return None, i
        end = closing(toks, i)
        f.body = toks[i:end + 1]
        return f, end


# ---- types, as far as a choice of mistakes needs them: a wrong guess makes a mistake that the compiler refuses

class Types:
    def __init__(self, code):
        self.code = code

    def of(self, toks, scope):
        while toks and toks[0].text == '(' and closing(toks, 0) == len(toks) - 1:
            toks = toks[1:-1]
        if not toks:
            return None
        for level in (('&&', '||', '==', '!=', '<', '<=', '>', '>='), ('|',), ('&',), ('+', '-'), ('*', '/', '%')):
            at = self.split(toks, level)
            if at is not None:
                if '==' in level:
                    return 'bool'
                left = self.of(toks[:at], scope)
                return left if left not in (None, 'int') else self.of(toks[at + 1:], scope)
        at = self.split(toks, ('as',))
        if at is not None:
            return type_text(toks[at + 1:])
        if toks[0].text == '!':
            return 'bool'
        if toks[0].text == '&':
            return '&[u8]' if toks[-1].text == ']' else None
        return self.chain(toks, scope)

    def split(self, toks, level):
        depth, found = 0, None
        for k, t in enumerate(toks):
            if t.kind == 'sign' and t.text in '()[]{}':
                depth += 1 if t.text in '([{' else -1
            elif depth == 0 and k > 0 and t.text in level and (t.text == 'as' or ends_operand(toks[k - 1])):
                found = k
        return found

    def chain(self, toks, scope):
        t, k = toks[0], 1
        if t.kind == 'number':
            suffix = re.search(r'(u8|u16|u32|u64|usize)$', t.text)
            return suffix.group() if suffix and not t.text.startswith('0x') else 'int'
        if t.kind == 'char':
            return 'u8'
        if t.text in ('true', 'false'):
            return 'bool'
        if t.kind != 'name' or t.text in WORDS:
            return None
        path = [t.text]
        while k + 1 < len(toks) and toks[k].text == '::':
            path.append(toks[k + 1].text)
            k += 2
        if k < len(toks) and toks[k].text == '(':
            f = self.code.called(path)
            now = f.returns if f else path[-1] if path[-1] in self.code.structs else None
            k = closing(toks, k) + 1
        elif k < len(toks) and toks[k].text == '{':
            now, k = path[0], closing(toks, k) + 1
        elif len(path) == 2 and tuple(path) in self.code.variants:
            now = path[0]
        else:
            now = scope.get(path[-1])
        while k < len(toks):
            if toks[k].text == '.' and k + 1 < len(toks):
                word, k = toks[k + 1].text, k + 2
                if k < len(toks) and toks[k].text == '(':
                    now, k = 'usize' if word == 'len' else None, closing(toks, k) + 1
                else:
                    now = dict(self.code.structs.get(now, [])).get(word)
            elif toks[k].text == '[':
                now, k = 'u8', closing(toks, k) + 1
            else:
                return None
        return now


def ends_operand(t):
    return t.kind in ('number', 'char') or t.text in (')', ']') or (t.kind == 'name' and t.text not in WORDS - {'true', 'false'})
