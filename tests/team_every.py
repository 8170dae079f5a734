"""All that may be printed of small scripts, by all orders of the steps of the simulator: the checker has to accept just that.

Outputs that may not be printed are made of those that may be: with the replies of one session from one of them, and those of another one
from another, or from what may be printed of the lines in another order.
"""

import console_files as files
from console_model import Wrong
from team_lines import Line, sections_of
from team_simulator import Simulator

# Lines that come of each other, over one paragraph or two.
LINES = ['put 1 hello', 'put 1 q丁', 'put 2 丂', 'ins 1 七x', 'ins 2 丄', 'ins 3 丅', 'del 1', 'del 2', 'sub 1 0 1 q', 'sub 2 0 3 x',
         'sub 1 1 1 ', 'show', 'show', 'show', 'settle', 'settle', 'stop 1', 'stop 1', 'stop 2', 'ask 1', 'ask 2', 'load b.aff b.dic',
         'load a.aff a.dic', 'quit']
FRONTS = [[], ['ins 1 丆'], ['ins 1 丆', 'ins 2 万'], ['ins 1 丆', 'ins 2 万', 'settle'], ['ins 1 丆', 'stop 1'],
          ['ins 1 丆', 'stop 1', 'ask 1']]
# How many orders of steps a script has at most, and how many outputs are mixed of those of one.
MOST_ORDERS = 4_000
MIXES = 150


def small_script(rolled):
    """Two sessions or three with few lines."""
    count = rolled.choice((2, 2, 2, 3))
    texts = {session: rolled.choices(LINES, k=rolled.randint(1, 3 if count == 2 else 2)) for session in range(1, count + 1)}
    texts[1] = rolled.choice(FRONTS) + texts[1]
    numbers = iter(range(1, 100))
    return {session: [Line(next(numbers), text.encode()) for text in lines] for session, lines in texts.items()}


def every_output(sessions, has_workers, marks):
    """What is printed by all orders of steps; None where they are too many."""
    outputs, front, orders = set(), [], 0
    while True:
        taken = []

        def choose(count, _, taken=taken, front=front):
            taken.append((front[len(taken)] if len(taken) < len(front) else 0, count))
            return taken[-1][0]
        outputs.add(Simulator(sessions, files.GOOD[0], has_workers, files.fault_of, marks, choose).run())
        orders += 1
        while taken and taken[-1][0] + 1 == taken[-1][1]:
            taken.pop()
        if not taken:
            return outputs
        if orders == MOST_ORDERS:
            return None
        front = [chosen for chosen, _ in taken[:-1]] + [taken[-1][0] + 1]


def mixes(rolled, outputs):
    """Outputs with sessions from several ones."""
    parts = [sections_of(output) for output in sorted(outputs)]
    for _ in range(MIXES):
        total = rolled.choice(parts)[1]
        lines = []
        for place, (session, _) in enumerate(parts[0][0]):
            lines += [b'session %d' % session, *rolled.choice(parts)[0][place][1]]
        yield b''.join(line + b'\n' for line in [*lines, b'total text %d dict %d' % total])


def try_small_script(rolled, decide, marks):
    """What is wrong of a small script. Gives how many outputs were tried, and the first wrong one with its script; or None."""
    sessions, has_workers = small_script(rolled), rolled.random() < 0.5
    outputs = every_output(sessions, has_workers, marks)
    if outputs is None:
        return 0, None
    tried = {*outputs, *mixes(rolled, outputs)}
    for output in sorted(tried):
        try:
            decide(sessions, files.GOOD[0], int(has_workers), output)
            is_accepted = True
        except Wrong:
            is_accepted = False
        if is_accepted != (output in outputs):
            lines = '; '.join(f'{session} {line.text.decode()}' for session, mine in sessions.items() for line in mine)
            return len(tried), f'{"accepted" if is_accepted else "refused"}, with workers {has_workers}: {lines}\n{output.decode()}'
    return len(tried), None
