# What bash makes of keys: typed.py FILE LINE.. reads FILE in to an interactive shell, types each LINE, in which \t is the tab key, and prints the
# words that the command 'scanboot' gets, a line for each.
import os
import pty
import sys

READY = b'ready> '
script, lines = sys.argv[1], sys.argv[2:]
os.environ.update(PS1=READY.decode(), TERM='dumb', INPUTRC='/dev/null', HISTFILE='')
pid, terminal = pty.fork()
if pid == 0:
    os.execvp('bash', ['bash', '--norc', '--noprofile', '-i'])


def type_in(line):
    """the line, when the shell waits for one"""
    shown = b''
    while not shown.endswith(READY):
        shown += os.read(terminal, 1)
    os.write(terminal, line.encode() + b'\n')


type_in(f"source '{script}'; scanboot() {{ printf '%s|' \"$@\"; echo; }} >>typed")
for line in lines:
    type_in(line.replace('\\t', '\t'))
type_in('exit')
os.waitpid(pid, 0)
print(open('typed').read(), end='')
