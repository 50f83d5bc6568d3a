"""Weights that answers to trials are fitted by, and their level, shifted by answers that somebody checked."""

import math
import numpy as np
from scipy.optimize import brentq, minimize, minimize_scalar
from typing import NamedTuple

from olr.arrays import Booleans, Floats, Integers
from olr.confidence.weights import OF_PLACE, ORDER, WEIGHTS, Differences, probabilities

NONE = -1
"""In place of the number of a place: none of them is the right one."""
SHRINKING = 1e-4
"""How strongly a weight of its usual size is drawn to 0: so one of which trials say nothing is 0."""
TRUST = 3.0
"""How many binary orders a shift usually is: a normal curve of this deviation, so that a few answers don't decide alone."""
MOST_SHIFT = 12.0
"""Likewise, either way."""


class Trial(NamedTuple):
    """Answers to references whose right place is known, of which each has a place."""

    differences: Differences
    right: Integers
    """The row of the right place of each answer, or `NONE`: of several ones the likeliest."""
    weight: Floats
    """How much each answer counts."""


def fitted(trial: Trial) -> Floats:
    """The weights, in the order of `WEIGHTS`, by which right places are as probable as can be: they aren't whole numbers yet. Those that are
    bounded aren't below 0."""
    scale = np.array([weight.usual for weight in WEIGHTS.values()])
    of_none = trial.differences.of_none
    # Columns whose means are 0, but for the constant one, let the search end sooner.
    means = np.concatenate([[0.0], of_none[:, 1:].mean(axis=0)])
    centred = trial._replace(
        differences=trial.differences._replace(of_none=of_none - means),
        weight=trial.weight / trial.weight.sum(),
    )

    def loss(scaled: Floats) -> tuple[float, Floats]:
        value, slope = _loss(scaled * scale, centred)
        return value + SHRINKING * float(scaled @ scaled), slope * scale + 2 * SHRINKING * scaled

    found = minimize(
        loss,
        np.where([name == "none" for name in WEIGHTS], 0.0, 0.5),
        jac=True,
        method="L-BFGS-B",
        bounds=[(weight.least / weight.usual, None) for weight in WEIGHTS.values()],
        options={"ftol": 1e-12, "gtol": 1e-7, "maxiter": 500},
    )
    weights: Floats = found.x * scale
    weights[len(OF_PLACE)] -= weights[len(OF_PLACE) :] @ means
    return weights


def _loss(weights: Floats, trial: Trial) -> tuple[float, Floats]:
    """The mean of what right places lack in the natural logarithm of their probability, and its slope by each weight."""
    differences = trial.differences
    told = probabilities(weights, differences)
    is_none = trial.right == NONE
    right = np.where(is_none, 0, trial.right)
    of_right = np.where(is_none, told.of_none, told.of_place[right])
    value = -float(trial.weight @ np.log(np.maximum(of_right, 1e-300)))
    expected = np.add.reduceat(
        differences.of_place * told.of_place[:, None], differences.starts(), axis=0
    )
    there = np.where(is_none[:, None], 0.0, differences.of_place[right])
    by_place = trial.weight @ (there - expected)
    by_none = trial.weight @ ((told.of_none - is_none)[:, None] * differences.of_none)
    return value, np.concatenate([by_place, by_none]) * (math.log(2) / ORDER)


class Checked(NamedTuple):
    """Answers of which is known whether their likeliest place is right."""

    differences: Differences
    first: Booleans
    """Of each place: whether it is the likeliest one of its answer."""
    right: Booleans
    """Of each answer."""


def shift_of(weights: Floats, checked: Checked) -> float:
    """By how many binary orders the worth of none of these has to be greater, so that as many of these answers are right as is told."""

    def loss(shift: float) -> float:
        told = probabilities(shifted(weights, shift), checked.differences).of_place[checked.first]
        found = np.where(checked.right, told, 1 - told)
        return float((shift / TRUST) ** 2 / 2 - np.log(np.maximum(found, 1e-12)).sum())

    found = minimize_scalar(loss, bounds=(-MOST_SHIFT, MOST_SHIFT), method="bounded")
    return float(found.x)


def shift_to(weights: Floats, differences: Differences, first: Booleans, right: float) -> float:
    """By how many binary orders it has to be greater, so that such a share of the likeliest places is told to be right."""

    def off(shift: float) -> float:
        told = probabilities(shifted(weights, shift), differences).of_place[first]
        return float(told.mean()) - right

    if off(-MOST_SHIFT) <= 0 or off(MOST_SHIFT) >= 0:
        return -MOST_SHIFT if off(-MOST_SHIFT) <= 0 else MOST_SHIFT
    return float(brentq(off, -MOST_SHIFT, MOST_SHIFT))


def shifted(weights: Floats, shift: float) -> Floats:
    """Weights with another worth of none of these, by so many binary orders."""
    result = weights.copy()
    result[len(OF_PLACE)] += shift * ORDER
    return result


def whole(weights: Floats) -> dict[str, int]:
    """Weights as the whole numbers of a file, by their names."""
    rounded = np.rint(weights).astype(np.int64).tolist()
    return {
        name: min(max(value, weight.least), weight.greatest)
        for (name, weight), value in zip(WEIGHTS.items(), rounded)
    }
