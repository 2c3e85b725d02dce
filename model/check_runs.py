"""Replays every stored run and says what fails; then tries the exact rules in random runs."""

import random
import sys
from pathlib import Path

sys.dont_write_bytecode = True

from methods import EXACT, VARIANTS, Settings
from runs import exact, fails_at_end, finish, part_c, read_run, replay, text, ways_of
from search import play_one, size

HERE = Path(__file__).resolve().parent
RANDOM_RUNS = 300


class Wrong(Exception):
    """What is wrong with a stored run."""


def check_stored(path):
    """Checks one file; returns what to say of it."""
    stored = read_run(path)
    check_replay(stored)
    length = f"{size(stored.sections)} events"
    if stored.settings.variant == EXACT:
        return f"{length}, {check_example(stored)}"
    if stored.settings.variant != path.stem:
        raise Wrong(f"the variant is {stored.settings.variant}")
    why = fails_at_end(stored.settings, stored.fails, stored.sections)
    if why is None:
        raise Wrong(f"{stored.fails} does not fail")
    return f"{length}, {stored.fails} fails: {why}; exact rules: {check_exact(stored)}"


def check_replay(stored):
    """Settings and events are legal, and the decisions are those of the file."""
    refusal = stored.settings.refusal()
    if refusal is not None:
        raise Wrong(refusal)
    for events, decided in zip(ways_of(stored.sections), stored.decided):
        result = replay(stored.settings, events, each=False)
        if result.illegal:
            raise Wrong(result.illegal)
        decisions = {i: result.run.decision(i) for i in result.run.honest}
        if decisions != decided:
            raise Wrong("decided is " + ", ".join(f"board {i}: {text(d)}" for i, d in decisions.items()))


def check_example(stored):
    """An example of the exact rules: nothing fails."""
    if stored.fails != "-":
        raise Wrong("nothing may fail under the exact rules")
    check_exact(stored)
    return f"board 0 decides {text(stored.decided[0][0])}"


def check_exact(stored):
    """Replays a run under the exact rules as far as it is legal there, and finishes it: nothing fails."""
    settings = exact(stored.settings)
    refusal = settings.refusal()
    if refusal is not None:
        return f"refused, {refusal}"
    results = [replay(settings, events) for events in ways_of(stored.sections)]
    if len(results) == 2 and not any(result.illegal for result in results):
        why = part_c(replay(settings, stored.sections[0]).run, results[0].run, results[1].run)
        if why is not None:
            raise Wrong(f"C fails under the exact rules: {why}")
    for result in results:
        finish(result)
        for name, why in result.fails.items():
            raise Wrong(f"{name} fails under the exact rules: {why}")
    if any(result.illegal for result in results):
        return f"holds, legal up to event {min(result.used for result in results)}"
    return "holds, all legal"


def draw_settings(rng):
    """Exact rules, any small crew."""
    method, cover = rng.choice((("plain", 2), ("echo", 3)))
    crew = rng.randint(1, 7)
    f = rng.choice(((crew - 1) // cover, rng.randint(0, (crew - 1) // cover)))
    listed = frozenset(rng.sample(range(crew), rng.randint(0, f)))
    return Settings(method, EXACT, rng.choice((1, 2)), crew, f, cover, rng.randint(1, 4), listed)


def check_random(seed):
    """The exact rules in random runs; returns how many fail."""
    rng = random.Random(seed)
    wrong = 0
    for _ in range(RANDOM_RUNS):
        settings = draw_settings(rng)
        found = play_one(rng, settings)
        if found is not None:
            wrong += 1
            print(f"WRONG {found[0]} fails under the exact rules: {settings}")
            print(*sum(found[1], []), sep="\n")
    print(f"{RANDOM_RUNS} random runs of the exact rules, {wrong} in which the promise fails")
    return wrong


def main():
    paths = sorted(HERE.glob("broken/*.txt")) + sorted(HERE.glob("examples/*.txt"))
    wrong = 0
    for path in paths:
        name = f"{path.parent.name}/{path.name}"
        try:
            print(f"{name}: {check_stored(path)}")
        except (Wrong, ValueError, KeyError) as error:
            wrong += 1
            print(f"{name}: WRONG, {error}")
    for variant in sorted(set(VARIANTS) - {path.stem for path in paths}):
        wrong += 1
        print(f"broken/{variant}.txt: WRONG, missing")
    wrong += check_random(seed=1)
    print(f"{len(paths)} runs checked, {wrong} wrong")
    return 1 if wrong else 0


if __name__ == "__main__":
    sys.exit(main())
