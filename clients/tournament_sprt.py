#!/usr/bin/env python3
"""When to stop: a sequential probability ratio test (SPRT), and its simulation.

    tournament_sprt.py [--runs N] [--seed S]    simulates N tests of each kind and prints how often each one errs

The test asks whether a program is better than those it meets by `elo0` points at most, or by `elo1` at least. After each
match (trinomial) or each two matches with seats turned round (pentanomial) it takes the ratio of the likelihoods of both:
each one is that of the likeliest chances of the outcomes whose mean is what that many points give. It ends if the
logarithm of the ratio leaves the bounds that `alpha` and `beta` give.
"""

import argparse
import math
import random
from concurrent.futures import ProcessPoolExecutor
from dataclasses import dataclass
from functools import lru_cache
from typing import Iterable, Optional, Sequence

from tournament_plan import Sprt

NONE = 0.1  # what an outcome counts that was never seen


def score_of(elo: float) -> float:
    """What a program takes of each match on the mean that is better by this many points.

    >>> round(score_of(0), 3), round(score_of(400), 3)
    (0.5, 0.909)
    """
    return 1 / (1 + 10 ** (-elo / 400))


def tilt(counts: Sequence[float], values: Sequence[float], mean: float) -> float:
    """The number t with which `counts[i] / (1 + t * (values[i] - mean))` are the likeliest chances of this mean, but for
    a factor: that at which the sum of each one times `values[i] - mean` is 0.

    >>> round(tilt([1, 1], [0.0, 1.0], 0.5), 6), round(tilt([1, 3], [0.0, 1.0], 0.5), 6)
    (0.0, 1.0)
    """
    gaps = [value - mean for value in values]
    low, high = -1 / max(gaps), -1 / min(gaps)
    guess = 0.0
    for _ in range(60):
        slope = curve = 0.0
        for count, gap in zip(counts, gaps):
            part = gap / (1 + guess * gap)
            slope += count * part
            curve += count * part * part
        # the sum falls as t grows
        low, high = (guess, high) if slope > 0 else (low, guess)
        step = slope / curve
        if abs(step) < 1e-10:
            break
        guess = guess + step if low < guess + step < high else (low + high) / 2
    return guess


@lru_cache(1 << 18)
def ratio(counts: tuple[int, ...], mean0: float, mean1: float) -> float:
    """The logarithm of the ratio of the likelihoods of two means, by how often each outcome was seen. The outcomes are as
    far from each other, the first one 0 and the last one 1. The spread of the outcomes is itself estimated, from n of them,
    as (n - 1) / n of what it is on the mean: so the logarithm is that part of what it would be.

    Of wins and losses alone it is otherwise the plain ratio, but for what a draw counts that was never seen:

    >>> plain = 60 * math.log(0.6 / 0.5) + 40 * math.log(0.4 / 0.5)
    >>> round(ratio((40, 0, 60), 0.5, 0.6), 3), round(0.99 * plain, 3)
    (1.993, 1.993)
    """
    number = sum(counts)
    values = [index / (len(counts) - 1) for index in range(len(counts))]
    weights = [count or NONE for count in counts]
    tilt0, tilt1 = tilt(weights, values, mean0), tilt(weights, values, mean1)
    gained = sum(
        weight * math.log((1 + tilt0 * (value - mean0)) / (1 + tilt1 * (value - mean1)))
        for weight, value in zip(weights, values)
    )
    return gained * (number - 1) / number


@dataclass
class Test:
    """A test that runs. `counts` are how often each outcome was seen, the worst one first."""

    sprt: Sprt
    counts: tuple[int, ...] = ()
    ratio: float = 0.0
    verdict: Optional[str] = None  # "elo0" or "elo1"

    def __post_init__(self) -> None:
        self.counts = self.counts or (0,) * (5 if self.sprt.model == "pentanomial" else 3)
        self.bounds = math.log(self.sprt.beta / (1 - self.sprt.alpha)), math.log((1 - self.sprt.beta) / self.sprt.alpha)
        self.means = score_of(self.sprt.elo0), score_of(self.sprt.elo1)

    def hear(self, share: float) -> None:
        """Counts what was taken of a match, or of two, from 0 to 1. After the verdict nothing is counted.

        >>> test = Test(Sprt("a", 0, 100, model="trinomial"))
        >>> for _ in range(60):
        ...     test.hear(1.0)
        >>> test.verdict, test.counts, [round(bound, 2) for bound in test.bounds]
        ('elo1', (0, 0, 13), [-2.94, 2.94])
        """
        if self.verdict is None:
            place = round(share * (len(self.counts) - 1))
            self.counts = tuple(count + (index == place) for index, count in enumerate(self.counts))
            self.ratio = ratio(self.counts, *self.means)
            low, high = self.bounds
            self.verdict = "elo0" if self.ratio <= low else "elo1" if self.ratio >= high else None

    def short(self) -> str:
        return f"SPRT {self.ratio:.2f} in {self.bounds[0]:.2f} .. {self.bounds[1]:.2f}"

    def in_words(self) -> str:
        """
        >>> Test(Sprt("a", 0, 100)).in_words()
        'SPRT of a, 0 or 100 points: ratio 0.00 in -2.94 .. 2.94, pairs 0 0 0 0 0'
        """
        low, high = self.bounds
        what = "pairs" if len(self.counts) == 5 else "lost, drawn, won"
        points = f"{self.sprt.elo0:g} or {self.sprt.elo1:g} points"
        end = {None: "", "elo0": f": decided for {self.sprt.elo0:g}", "elo1": f": decided for {self.sprt.elo1:g}"}
        seen = " ".join(map(str, self.counts))
        bounds = f"ratio {self.ratio:.2f} in {low:.2f} .. {high:.2f}"
        return f"SPRT of {self.sprt.program}, {points}: {bounds}, {what} {seen}{end[self.verdict]}"


def shares_of_test(sprt: Sprt, encounters: Iterable[Sequence[Sequence[float]]]) -> Iterable[float]:
    """What a test hears of encounters, of each of which it is given what was taken of its matches. Of two matches that
    belong together a pentanomial test hears the mean. Those that don't count are None there.

    >>> list(shares_of_test(Sprt("a"), [[1.0, 0.5], [1.0, None]]))
    [0.75]
    >>> list(shares_of_test(Sprt("a", model="trinomial"), [[1.0, 0.5], [1.0, None]]))
    [1.0, 0.5, 1.0]
    """
    for taken in encounters:
        heard = [share for share in taken if share is not None]
        if sprt.model == "trinomial":
            yield from heard
        elif len(heard) == len(taken) == 2:
            yield sum(heard) / 2


def chance_of_game(chance: random.Random, mean: float, draws: float) -> float:
    """A random match: what was taken."""
    drawn = chance.random()
    return 0.5 if drawn < draws else float(drawn < draws + mean - draws / 2)


def simulate(model: str, better: bool, advantage: float, seed: int, runs: int, elo1: float = 50.0) -> tuple[int, int]:
    """How many of that many tests err, and how many matches they take together. The program is better by `elo1` points, or
    by none. Three matches of ten are drawn. The first seat takes `advantage` more of each match than the second one.

    >>> errors, matches = simulate("pentanomial", False, 0.1, 1, 100, elo1=120)
    >>> 0 <= errors <= 12, 1000 < matches < 9000
    (True, True)
    """
    chance = random.Random(seed)
    sprt = Sprt("a", 0.0, elo1, model=model)
    mean = score_of(elo1 if better else 0.0)
    errors = matches = 0
    for _ in range(runs):
        test = Test(sprt)
        while test.verdict is None:
            two = [chance_of_game(chance, mean + side * advantage, 0.3) for side in (1, -1)]
            matches += 2
            for share in shares_of_test(sprt, [two]):
                test.hear(share)
        errors += test.verdict != ("elo1" if better else "elo0")
    return errors, matches


def main() -> None:
    parser = argparse.ArgumentParser(description=__doc__.splitlines()[0])
    parser.add_argument("--runs", type=int, default=10_000, metavar="N")
    parser.add_argument("--seed", type=int, default=1, metavar="S")
    words = parser.parse_args()
    parts = 20
    print("elo0 = 0, elo1 = 50, alpha = beta = 0.05; three matches of ten are drawn")
    with ProcessPoolExecutor() as pool:
        for model in ("trinomial", "pentanomial"):
            for advantage in (0.0, 0.15):
                for better in (False, True):
                    done = [
                        pool.submit(simulate, model, better, advantage, words.seed * 1000 + part, words.runs // parts)
                        for part in range(parts)
                    ]
                    errors, matches = map(sum, zip(*(each.result() for each in done)))
                    runs = words.runs // parts * parts
                    kind = "0 points" if not better else "50 points"
                    print(
                        f"{model}, first seat +{advantage:g}, better by {kind}: {errors} of {runs} err "
                        f"({100 * errors / runs:.2f} %), {matches / runs:.0f} matches a test",
                        flush=True,
                    )


if __name__ == "__main__":
    main()
