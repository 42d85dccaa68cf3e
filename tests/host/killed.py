# Ends a program in the middle of writing its output, by each signal in turn, with and without an old file in its place.
# killed.py SIGNALS TIMES WORDS.. runs the words, whose last is the output, alone in its folder; 'new' holds what the output becomes.
# Of each signal: how often the new file did not come, and how many files were left beside an old one, or alone, and were only a part.
# A signal that came too late each time is tried more often.
# The exit status is 1 if the output was ever anything but the old file, or none, or the new one.
import os
import random
import resource
import signal
import subprocess
import sys
import time

signals, times, words = sys.argv[1].split(), int(sys.argv[2]), sys.argv[3:]
output = os.path.abspath(words[-1])
folder = os.path.dirname(output)
new, old = open('new', 'rb').read(), b'old'
random.seed(1)
resource.setrlimit(resource.RLIMIT_CORE, (0, 0))
# whoever starts this may have had some of them ignored, as nohup does, and programs inherit that
for name in set(signals) - {'SIGKILL'}:
    signal.signal(getattr(signal, name), signal.SIG_DFL)


def is_writing(process):
    """whether the process has a file open in the folder of the output, by a name or without one"""
    descriptors = f'/proc/{process.pid}/fd'
    try:
        return any(os.readlink(f'{descriptors}/{n}').startswith(folder + '/') for n in os.listdir(descriptors))
    except OSError:
        return False


def start():
    """the program, come so far that it writes"""
    process = subprocess.Popen(words, stderr=subprocess.DEVNULL)
    while process.poll() is None and not is_writing(process):
        time.sleep(0.0002)
    return process, time.monotonic()


def content(path):
    return open(path, 'rb').read() if os.path.exists(path) else None


process, since = start()
process.wait()
takes = time.monotonic() - since
for name in signals:
    stayed = beside = alone = part = turn = 0
    while turn < times or stayed == 0 and turn < 20 * times:
        before = old if turn % 2 == 0 else None
        if os.path.exists(output):
            os.unlink(output)
        if before is not None:
            with open(output, 'wb') as f:
                f.write(before)
        process, since = start()
        time.sleep(takes * random.random() * (turn % times) / times)
        turn += 1
        process.send_signal(getattr(signal, name))
        process.wait()
        now = content(output)
        if now not in (before, new):
            print(f'{name}: neither old nor new: {None if now is None else len(now)} bytes')
            sys.exit(1)
        stayed += now == before
        for left in set(os.listdir(folder)) - {os.path.basename(output)}:
            path = os.path.join(folder, left)
            beside += before is not None
            alone += before is None
            part += content(path) != new
            os.unlink(path)
    print(f'{name} stayed {stayed} beside {beside} alone {alone} part {part}')
