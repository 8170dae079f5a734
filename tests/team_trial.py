"""Has the checker decide of outputs, and tries it by outputs that are wrong."""

import collections

import console_files as files
import team_faulty
import team_table
import team_wrong
import team_wrong_looks
import team_wrong_parts
from console_model import Wrong
from team_history import Undecided, explain
from team_lines import calls_of, sessions_of
from team_marks import WordMarks

# Of how many outputs each way makes others at most; how many a simulator prints that goes wrong; and how many have to be refused.
TRIES, MANY_TRIES = 200, 1_000
ENOUGH = 3


def decide(sessions, pair, workers, output, marks, steps):
    calls, total = calls_of(sessions, output, files.fault_of)
    pairs = {0: pair} | {call.dict: call.command.texts for mine in calls for call in mine if call.kind == 'load'}
    return calls, explain(calls, total, pairs, workers > 0, marks.of, steps)


def try_table():
    """What is wrong of the outputs that were written by hand."""
    for about, pair, workers, is_right, script, output in team_table.rows():
        try:
            decide(sessions_of(script), pair, workers, output, WordMarks(), 10_000)
            was = None
        except Wrong as wrong:
            was = wrong
        if is_right != (was is None):
            yield f'{about}: {"refused: " + str(was) if is_right else "accepted"}'


def turned(way, *teams):
    """Outputs that a way has turned, each with its script. If few of the first team can be turned, those of the next one follow: nobody
    can say what threads do."""
    made = 0
    for team in teams:
        for number in range(TRIES):
            script = team.script(number)
            printed = team_wrong.Printed(output := team.output(script))
            if way(printed, calls_of(script.sessions, output, files.fault_of)[0], script.random) is not False:
                made += 1
                yield script, printed.output()
        if made >= ENOUGH:
            return


def simulated_by(team, kind):
    """Outputs of a simulator that goes wrong, where sessions mix much."""
    for number in range(MANY_TRIES):
        script = team.script(number)
        script.stay = 0
        yield script, script.simulated(team.marks, kind)


def try_outputs(team, name, outputs, is_always):
    """Whether of outputs that are wrong in a way some are refused, and all, where nothing can explain one. Prints what came of them."""
    counts, first = collections.Counter(), None
    for script, output in outputs:
        try:
            team.decide(script, output)
            counts['accepted'] += 1
        except Undecided:
            counts['not decided'] += 1
        except Wrong as wrong:
            counts['refused'] += 1
            first = first or wrong
        if counts['refused'] >= ENOUGH or (name == 'nothing' and counts['accepted'] >= 10 * ENOUGH):
            break
    is_right = counts['refused'] > 0 and not (is_always and counts['accepted'])
    if name == 'nothing':
        is_right = counts['refused'] == 0 < counts['accepted']
    told = ', '.join(f'{count} {kind}' for kind, count in sorted(counts.items())) or 'it could not be made'
    print(f'{"" if is_right else "NOT AS IT SHOULD BE: "}{name}: {told}{f"; first: {first}" if first else ""}', flush=True)
    return is_right


def try_wrong(team, simulated):
    """How many ways there are of which no output is refused, or one accepted that may not be. The second one has the simulator."""
    ways, failed = team_wrong.WAYS | team_wrong_looks.WAYS | team_wrong_parts.WAYS, 0
    for name, (way, is_always) in {'nothing': (team_wrong.nothing, False), **ways}.items():
        failed += not try_outputs(team, name, turned(way, team, simulated), is_always)
    for kind in team_faulty.FAULTY:
        failed += not try_outputs(simulated, 'a simulator: ' + kind.__doc__.rstrip('.'), simulated_by(simulated, kind), False)
    return failed
