"""What the comparisons with npyz share: where the program of ask.rs is, and the classes of difference."""
import os
import subprocess
import sys

HERE = os.path.dirname(os.path.abspath(__file__))
ROOT = os.path.dirname(os.path.dirname(HERE))
sys.path[:0] = [os.path.join(ROOT, 'tests', 'model'), os.path.join(ROOT, 'vectors')]
import frames

PROGRAM = os.path.join(ROOT, 'target', 'npyz', 'target', 'release', 'ask')


def ask(cases):
    """npyz's lines for these cases. The program is built where it is missing."""
    if not os.path.exists(PROGRAM):
        subprocess.run([os.path.join(HERE, 'make')], check=True, stdout=subprocess.DEVNULL)
    return frames.ask([PROGRAM], cases)


class Classes:
    """Counts differences by class, and keeps the smallest case of each, by length and then by bytes."""

    def __init__(self):
        self.found = {}

    def add(self, name, case, *answers):
        count, least, of_least = self.found.get(name, (0, case, answers))
        if (len(case), case) < (len(least), least):
            least, of_least = case, answers
        self.found[name] = (count + 1, least, of_least)

    def show(self):
        for name, (count, least, of_least) in sorted(self.found.items()):
            shown = repr(least) if len(least) < 300 else f'{least[:60]!r} .. ({len(least)} bytes)'
            print(f'{count:9} {name}\n          smallest {shown}\n          ' + ' | '.join(answer[:160] for answer in of_least))
