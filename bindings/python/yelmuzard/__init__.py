"""Yelmuzard: for each rain gauge the piece of a box that lies nearest to it (Voronoi cells, Thiessen polygons), by proved code.

>>> import numpy, yelmuzard
>>> gauges = numpy.array([(10., 20.), (70., 30.), (40., 60.)])
>>> found = yelmuzard.pieces(gauges, box=(0, 0, 100, 80))
>>> [round(area, 6) for area in found.areas]
[1800.744048, 3499.702381, 2699.553571]
>>> print(found.certify())
certified: every place that is nearer to one gauge by more than 3.4e-08 is in its piece, once
>>> found.nearest([(0, 0), (99, 79)]).tolist()
[0, 1]

What cannot be answered is a Refusal, with number, words and place:

>>> yelmuzard.pieces(gauges, box=(0, 0, 0, 80))
Traceback (most recent call last):
..
yelmuzard.refusal.Refusal: refused 3: the box has a size that is not above 0, edges out of order, or a number that is too large or not finite
"""
from .library import MissingLibrary, library
from .mesh import Mesh
from .pieces import Pieces, default_way, pieces
from .refusal import Place, Refusal
from .verdict import Certificate, Reason, Verdict
from .version import VERSION as __version__

__all__ = ["Certificate", "Mesh", "MissingLibrary", "Pieces", "Place", "Reason", "Refusal", "Verdict", "__version__", "default_way", "library", "pieces"]
