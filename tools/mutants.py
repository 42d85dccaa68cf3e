#!/usr/bin/env python3
"""mutants.py CRATE: small mistakes put into the code of a crate, one at a time. The prover must refuse each.

Only function bodies and the values of constants are changed: no contract, type, name, import or comment.
Each mistake is tried on a copy of the crate in a temporary folder, where what it depends on is proved already.
The check ('rt check') begins with what an earlier one kept: what a mistake does not reach is not checked again. A mistake
that gets through is checked once more from nothing ('rt verdict'), and is a survivor if that proves it too.

  --limit N     that many mistakes, drawn evenly from all kinds (all of them)
  --seed S      of the draw and the order (1)
  --jobs J      as many at a time (1)
  --minutes M   begin no further mistake after so many minutes
  --seconds T   time for one mistake (ten times what the whole crate takes, at least 120)
  --only TEXTS  only where FILE:FUNCTION:KIND has one of these in it, with commas between them
  --list        print the mistakes and try none

All results are kept in build/mutants-CRATE.txt. A survivor that tools/mutants-right.txt lists, with the reason why
the program is still right, is counted apart. Exit status: 0 no other survivor; 1 some; 2 the crate itself is not proved.
"""
import argparse, os, queue, random, re, shutil, signal, subprocess, sys, tempfile, threading, time
from pathlib import Path

sys.dont_write_bytecode = True
from mutants_kinds import ROOT, mistakes_of


def drawn(found, limit, seed):
    """Kind by kind in turn, so that a few mistakes are of all kinds."""
    rng = random.Random(seed)
    kinds = {}
    for m in found:
        kinds.setdefault(m.kind, []).append(m)
    for k in kinds:
        rng.shuffle(kinds[k])
    out = []
    while any(kinds.values()):
        for k in sorted(kinds):
            if kinds[k]:
                out.append(kinds[k].pop())
    return out[:limit] if limit else out


# ---- trying them

# What says that the proof files and the code's shape no longer fit each other, and nothing of a fact.
UNFIT = re.compile(r'that can be named from here|has no field|is not in scope|has no `|binders?, but its type has room for only|'
                   r'this pattern needs a function')
ENSUING = 'was not admitted'


def errors_of(output):
    """Each error, and each goal of the code that is not proved, with the lines under it."""
    out = []
    for line in output.split('\n'):
        if re.match(r'\S+: error|note: \S+: it is not proved', line):
            out.append(line)
        elif out and out[-1] and line.startswith('  '):
            out[-1] += '\n' + line
        elif line and not line.startswith(' '):
            out.append('')
    return [e for e in out if e]


def judge(status, output):
    if re.search(r'^logic=proved', output, re.M):
        return 'proved'
    if re.search(r'^logic=not-proved', output, re.M):
        own = [e for e in errors_of(output) if ENSUING not in e.split('\n')[0]]
        unfit = sum(1 for e in own if UNFIT.search(e.split('\n')[0]))
        return 'fact' if not unfit else 'unfit' if unfit == len(own) else 'both'
    if status == 1:
        return 'compiler'
    return 'no verdict'


RUNNING, STARTING, ENDED = set(), threading.Lock(), threading.Event()


# In a group of its own, so that all of it can be ended together; where Linux shares out time by such groups, that one is to be nice.
LOW = ['sh', '-c', '(echo ${MUTANTS_NICE:-19} >/proc/self/autogroup) 2>/dev/null; exec "$@"', 'sh']


def run(words, folder, seconds, given=b'', errors=subprocess.STDOUT):
    with STARTING:
        if ENDED.is_set():
            raise InterruptedError
        p = subprocess.Popen(LOW + words, cwd=folder, stdin=subprocess.PIPE, stdout=subprocess.PIPE, stderr=errors, start_new_session=True)
        RUNNING.add(p.pid)
    try:
        out, _ = p.communicate(given, timeout=seconds)
        return p.returncode, out.decode('utf-8', 'replace')
    except subprocess.TimeoutExpired:
        os.killpg(p.pid, signal.SIGKILL)
        p.communicate()
        return None, ''
    except BaseException:
        os.killpg(p.pid, signal.SIGKILL)
        p.wait()
        raise
    finally:
        RUNNING.discard(p.pid)


def end_all():
    with STARTING:
        ENDED.set()
    for pid in list(RUNNING):
        try:
            os.killpg(pid, signal.SIGKILL)
        except ProcessLookupError:
            pass


def stands_on(crate):
    """The lines of crates.txt of a crate and of those that it stands on, directly or not, by name."""
    lines = {}
    for line in (Path(ROOT) / 'crates.txt').read_text().splitlines():
        name, colon, below = line.split('#')[0].partition(':')
        if colon:
            lines[name.split()[0]] = line, below.split()
    found, left = {}, [crate]
    while left:
        name = left.pop()
        if name in lines and name not in found:
            found[name] = lines[name][0]
            left += lines[name][1]
    return found


class Copy:
    """A copy of a crate and of those that it stands on. What checks have kept stays beside each, in out/: of those the libraries, of the crate itself
    what its own check begins with."""

    def __init__(self, where, crate, like=None):
        self.where, self.crate, below = Path(where), crate, stands_on(crate)
        self.folder = self.where / 'crates' / crate
        for name in below:
            shutil.copytree(Path(ROOT) / 'crates' / name, self.where / 'crates' / name, ignore=shutil.ignore_patterns('out', 'must-fail'))
        (self.where / 'crates.txt').write_text('\n'.join(below.values()) + '\n')
        for part in like.kept_parts() if like else []:
            shutil.copytree(like.where / part, self.where / part)

    def kept_parts(self):
        return [p.relative_to(self.where) for p in [*self.where.glob('crates/*/out/rlib'), self.inc()] if p.is_dir()]

    def prepare(self):
        status, out = run(['rt', 'check', '--jobs', '1'], self.folder, None)
        if status != 0:
            print(out[-3000:])
            print(f'mutants: the crate {self.crate} is not proved')
            sys.exit(2)

    def inc(self):
        return self.folder / 'out/incremental'

    def files(self):
        for path in self.inc().rglob('*'):
            if path.is_file():
                s = path.stat()
                yield path.relative_to(self.inc()), (s.st_mtime_ns, s.st_size, s.st_ino)

    def keep(self):
        self.kept = self.where / 'kept'
        shutil.copytree(self.inc(), self.kept)
        self.stats = dict(self.files())

    def restore(self):
        """Puts back what the check of a mistake has changed. A file of another copy may be the same one under a second name, so none is written into."""
        now = dict(self.files())
        for path in set(now) | set(self.stats):
            if now.get(path) != self.stats.get(path):
                (self.inc() / path).unlink(missing_ok=True)
                if path in self.stats:
                    (self.inc() / path).parent.mkdir(parents=True, exist_ok=True)
                    shutil.copy2(self.kept / path, self.inc() / path)
        self.stats = dict(self.files())

    def attempt(self, m, seconds):
        path = self.where / m.path
        before = path.read_text(encoding='utf-8')
        path.write_text(m.changed, encoding='utf-8')
        try:
            status, out = run(['rt', 'check', '--jobs', '1'], self.folder, seconds)
            if status is None:
                return 'time', ''
            verdict = judge(status, out)
            return self.again(m) if verdict == 'proved' else (verdict, out)
        finally:
            path.write_text(before, encoding='utf-8')
            self.restore()

    def again(self, m):
        """From nothing, and with the program's output, if it is one."""
        with tempfile.TemporaryDirectory(dir=self.where) as where:
            other = Copy(where, self.crate)
            (other.where / m.path).write_text(m.changed, encoding='utf-8')
            status, out = run(['rt', 'verdict', '--jobs', '1'], other.folder, None)
            verdict = judge(status, out)
            if verdict == 'proved' and (other.folder / 'src/main.rt').is_file():
                given, wanted = ((other.folder / name).read_bytes() if (other.folder / name).is_file() else b'' for name in ('stdin', 'stdout'))
                status, wrote = run(['rt', 'run', '--jobs', '1'], other.folder, None, given, subprocess.DEVNULL)
                verdict = 'proved' if status == 0 and wrote.encode() == wanted else 'output'
            return verdict, out


def known():
    """tools/mutants-right.txt: blocks of lines 'at: FILE FUNCTION', 'old:', 'new:', 'why:'."""
    out, now = {}, {}
    path = os.path.join(ROOT, 'tools', 'mutants-right.txt')
    if os.path.exists(path):
        for line in open(path, encoding='utf-8'):
            word, _, rest = line.rstrip('\n').partition(': ')
            if word in ('at', 'old', 'new', 'why'):
                now[word] = rest
            if word == 'why':
                out[tuple(now['at'].split() + [now['old'], now['new']])] = rest
    return out


WORDING = [
    ('fact', 'refused by a fact'),
    ('both', 'refused by a fact, and the proof file no longer fits either'),
    ('unfit', 'refused only because the proof file no longer fits'),
    ('compiler', 'not a program (refused by the compiler)'),
    ('time', 'ended by the time limit'),
    ('no verdict', 'no verdict'),
    ('output', 'proved, but the program wrote something else than its file stdout has'),
    ('right', 'survivors that are still right programs'),
    ('proved', 'SURVIVORS'),
]


def main():
    p = argparse.ArgumentParser(description=__doc__, formatter_class=argparse.RawDescriptionHelpFormatter)
    p.add_argument('crate')
    for name in ('--limit', '--seed', '--jobs', '--seconds'):
        p.add_argument(name, type=int, default={'--seed': 1, '--jobs': 1}.get(name, 0))
    p.add_argument('--minutes', type=float, default=0)
    p.add_argument('--only', default='')
    p.add_argument('--list', action='store_true')
    a = p.parse_args()
    if not os.path.isdir(os.path.join(ROOT, 'crates', a.crate, 'src')):
        p.error(f'there is no crate {a.crate}')
    found = [m for m in mistakes_of(a.crate) if any(text in m.name() for text in a.only.split(','))]
    chosen = drawn(found, a.limit, a.seed)
    if a.list:
        for m in chosen:
            print(f'{m.path}:{m.line}: {m.function}: {m.kind}\n    {m.old}\n    {m.new}')
        print(f'{len(chosen)} of {len(found)} mistakes')
        return 0
    os.nice(19)
    began = time.time()
    work = tempfile.mkdtemp(prefix='mutants-')
    signal.signal(signal.SIGTERM, lambda *_: sys.exit(143))
    try:
        return tried(a, found, chosen, work, began)
    finally:
        end_all()
        shutil.rmtree(work, ignore_errors=True)


def tried(a, found, chosen, work, began):
    first = Copy(os.path.join(work, '0'), a.crate)
    first.prepare()
    copies = [first, *(Copy(os.path.join(work, str(n)), a.crate, first) for n in range(1, min(a.jobs, len(chosen))))]
    for c in copies:
        c.keep()
    start = time.time()
    ready = start - began
    seconds = a.seconds or max(120, int(10 * ready))
    print(f'{a.crate}: {len(chosen)} of {len(found)} mistakes, seed {a.seed}, {len(copies)} at a time, at most {seconds} s each')
    sys.stdout.flush()
    right, counts, lock = known(), {}, threading.Lock()
    todo = queue.SimpleQueue()
    for m in chosen:
        todo.put(m)
    os.makedirs(os.path.join(ROOT, 'build'), exist_ok=True)
    log = open(os.path.join(ROOT, 'build', f'mutants-{a.crate}.txt'), 'w', encoding='utf-8')
    kinds, failures = {}, []

    def work_off(copy):
        while not (a.minutes and time.time() - began > 60 * a.minutes):
            try:
                m = todo.get_nowait()
            except queue.Empty:
                return
            t = time.time()
            try:
                verdict, out = copy.attempt(m, seconds)
            except Exception as e:
                failures.append(e)
                return
            with lock:
                why = right.get(m.key()) if verdict == 'proved' else None
                shown = 'right' if why else verdict
                counts[shown] = counts.get(shown, 0) + 1
                if shown in ('fact', 'both') and re.search('All of that holds, and the (goal|part) fails, at|: the known facts allow ', out):
                    counts['shown'] = counts.get('shown', 0) + 1
                kinds.setdefault(m.kind, {}).setdefault(shown, []).append(m)
                log.write(f'{shown}\t{time.time() - t:.1f} s\t{m.path}:{m.line}\t{m.function}\t{m.kind}\n    {m.old}\n    {m.new}\n')
                for e in errors_of(out)[:3]:
                    log.write('        ' + e.split('\n')[0][:400] + '\n')
                log.flush()
                if shown in ('proved', 'right', 'time', 'no verdict'):
                    print(f'{dict(WORDING)[shown]}: {m.path}:{m.line} ({m.function}, {m.kind})\n    old: {m.old}\n    new: {m.new}'
                          + (f'\n    right: {why}' if why else ''))
                    sys.stdout.flush()

    threads = [threading.Thread(target=work_off, args=(c,), daemon=True) for c in copies]
    for t in threads:
        t.start()
    for t in threads:
        while t.is_alive():
            t.join(1)
    if failures:
        raise failures[0]
    shown = counts.pop('shown', 0)
    total = sum(counts.values())
    print(f'{a.crate}: {total} tried of {len(found)}, {time.time() - start:.0f} s (and {ready:.0f} s to prepare)')
    for verdict, wording in WORDING:
        print(f'  {counts.get(verdict, 0):5d} {wording}')
    print(f'  of those refused by a fact, {shown} with numbers at which it fails')
    for k in sorted(kinds):
        print(f'  {k}: ' + ', '.join(f'{len(v)} {verdict}' for verdict, v in sorted(kinds[k].items())))
    log.close()
    return 1 if counts.get('proved') else 0


if __name__ == '__main__':
    sys.exit(main())
