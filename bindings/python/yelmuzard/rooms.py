"""Limits and rooms: how long the slices must be that a call is lent. The numbers are include/voronoi.h's; tests/test_header.py holds them to it."""
from __future__ import annotations

EMPTY = 0xFFFFFFFF
LEAST_SITES, MOST_SITES = 3, 65536
MOST_TRIANGLES = 131072
FAR = 2.0 ** 100
COUNTS = 9
COUNT_VERTICES, COUNT_OWNERS, COUNT_LOST = 0, 1, 5
AUDIT_BITS, CERTIFY_BITS = 20, 32
JOINED_BITS = 28  # of a certificate over a build whose corners were joined
GHOSTS = 64


def vertex_numbers(triangles: int, hull: int) -> int:
    """Of a build: two numbers a vertex."""
    return 2 * (7 * triangles + 5 * hull + 4)


def index_room(triangles: int, hull: int) -> int:
    """Of a build."""
    return 12 * triangles + 8 * hull + 4


def cut_vertex_numbers(triangles: int, hull: int) -> int:
    """Of cutting: two numbers a vertex."""
    return 2 * (7 * triangles + 2 * hull + 4)


def cut_index_room(triangles: int, hull: int) -> int:
    """Of cutting."""
    return 16 * triangles + 11 * hull


def neighbour_room(triangles: int, hull: int) -> int:
    return 3 * triangles + hull


def wkb_room(entries: int) -> int:
    """The bytes of a polygon of so many corners."""
    return 9 if entries < 3 else 29 + 16 * entries


def mesh_sites(gauges: int) -> int:
    """Of mesh/triangulate.c: the gauges and the ghosts behind them."""
    return gauges + GHOSTS


def mesh_triangles(gauges: int) -> int:
    """Of mesh/triangulate.c, in triangles."""
    return 2 * gauges + GHOSTS - 2


def mesh_work(gauges: int) -> int:
    return 4 * gauges + GHOSTS


def certify_room(sites: int, entries: int) -> int:
    """Of the certificate, in words; the entries without a cleared tail."""
    return 3 * entries + 2 * sites + 64
