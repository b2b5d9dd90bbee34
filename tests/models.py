"""A phone model file, read from the paper's words alone: its states and its steps, or a refusal."""
from dataclasses import dataclass

from rules import Refusal

MOST_STATES = 64
MOST_STEPS = 512

# The label of a silent step. The labels of other steps are their codes.
SILENT = 256

# The length of a step's record, its kind included.
LENGTHS = {17: 4, 18: 3}


@dataclass(frozen=True)
class Step:
    source: int
    label: int
    target: int


@dataclass(frozen=True)
class Model:
    """The states are the numbers under the count. The start is state 0."""

    states: int
    steps: tuple


def head_of(data):
    """The count of states, by the checks on the first record."""
    if len(data) == 0:
        raise Refusal(11, 0)
    if data[0] != 16:
        raise Refusal(12, 0)
    if len(data) == 1:
        raise Refusal(11, 1)
    if not 1 <= data[1] <= MOST_STATES:
        raise Refusal(12, 0)
    return data[1]


def step_at(data, place, before, states):
    """The step whose record begins at the place, after so many others, and the place behind it."""
    kind = data[place]
    if kind not in LENGTHS:
        raise Refusal(12, place)
    if before == MOST_STEPS:
        raise Refusal(14, place)
    end = place + LENGTHS[kind]
    if end > len(data):
        raise Refusal(11, len(data))
    source, target = data[place + 1], data[end - 1]
    if source >= states or target >= states:
        raise Refusal(13, place)
    return Step(source, data[place + 2] if kind == 17 else SILENT, target), end


def whole_model(data):
    states, steps, place = head_of(data), [], 2
    while place < len(data):
        step, place = step_at(data, place, len(steps), states)
        steps.append(step)
    return Model(states, tuple(steps))


def read_model(data):
    """The model that a file holds, or the refusal of the file."""
    try:
        return whole_model(data)
    except Refusal as refusal:
        return refusal


def record(source, label, target):
    """The record of a step."""
    return bytes([18, source, target]) if label == SILENT else bytes([17, source, label, target])


def file_of(states, steps):
    """The file of a model, its steps given as triples of source, label and target."""
    return bytes([16, states]) + b"".join(record(*step) for step in steps)
