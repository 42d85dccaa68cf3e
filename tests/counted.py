"""Counts what a test finds right and wrong, for its last line, 'N passed, M failed'."""
import sys

passed = failed = 0


def tell(name, right, detail=''):
    global passed, failed
    if right:
        passed += 1
    else:
        failed += 1
        print(f'failed: {name}{": " + detail if detail else ""}')


def end():
    """The last line, and the exit status: a test that looked at nothing has failed."""
    print(f'{passed} passed, {failed} failed')
    sys.exit(1 if failed or not passed else 0)
