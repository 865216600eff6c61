"""Corners of a build that were meant to be one: joined, and put on the box's edges.

A build computes where a side leaves the box from both of its ends, so that two pieces may end their common side at places that differ by a last bit; a certificate
compares places to the bit and names such a side. Here corners that are within 2^-30 of the reach of each other become one, and those as near to an edge are put on it.
That is a tool's work and unproved: what is joined is what is certified and printed.
"""
from __future__ import annotations

import itertools

import numpy

BITS = 30


def joined(box: tuple[float, float, float, float], vertices: numpy.ndarray, indexes: numpy.ndarray) -> numpy.ndarray:
    """The vertices with those that the indexes name moved. A joined corner is where the lowest of its vertices is, on each axis on the edge where one of them is.

    >>> near = numpy.array([(0.0, 0.5), (1e-12, 0.5), (1.0 - 1e-12, 0.25), (1.0, 1.0)])
    >>> joined((0.0, 0.0, 1.0, 1.0), near, numpy.arange(4, dtype=numpy.uint32)).tolist()
    [[0.0, 0.5], [0.0, 0.5], [1.0, 0.25], [1.0, 1.0]]
    """
    if not len(indexes):
        return vertices
    near = max(abs(edge) for edge in box) * 2.0 ** -BITS
    named = numpy.unique(indexes)
    places = vertices[named]
    for axis in (0, 1):
        for edge in (box[axis], box[axis + 2]):
            places[numpy.abs(places[:, axis] - edge) <= near, axis] = edge
    groups = grouped(places, near)
    for group in groups:
        together = places[group]
        for axis in (0, 1):
            on = numpy.isin(together[:, axis], (box[axis], box[axis + 2])).nonzero()[0]
            places[group, axis] = together[on[0] if len(on) else 0, axis]
    moved = vertices.copy()
    moved[named] = places
    return moved


def grouped(places: numpy.ndarray, near: float) -> list[list[int]]:
    """Those that are within `near` of each other along both axes, by a chain of such; only groups of places that differ."""
    known, first = numpy.unique(places + 0.0, axis=0, return_inverse=True)
    first = first.ravel()
    leader = list(range(len(known)))

    def lead(k: int) -> int:
        while leader[k] != k:
            leader[k] = leader[leader[k]]
            k = leader[k]
        return k

    # of two such places one of these four nets has both in one mesh
    for shift in itertools.product((0.0, 1.0), repeat=2):
        net = numpy.floor((known / near + shift) / 2)
        order = numpy.lexsort((net[:, 1], net[:, 0]))
        ends = numpy.concatenate([[0], (numpy.diff(net[order], axis=0) != 0).any(1).nonzero()[0] + 1, [len(order)]])
        for run in (numpy.diff(ends) > 1).nonzero()[0].tolist():
            within = order[ends[run]:ends[run + 1]]
            for (a, (x, y)), (b, (u, v)) in itertools.combinations(zip(within.tolist(), known[within].tolist()), 2):
                if abs(x - u) <= near and abs(y - v) <= near:
                    leader[lead(a)] = lead(b)
    together: dict[int, list[int]] = {}
    for place, k in enumerate(first.tolist()):
        together.setdefault(lead(k), []).append(place)
    return [group for group in together.values() if len(group) > 1 and len(set(first[group].tolist())) > 1]
