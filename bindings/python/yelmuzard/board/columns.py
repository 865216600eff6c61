"""Which column of a table is what: by its name, or by the name that was given for it."""
from __future__ import annotations

import re
from typing import Optional

from .told import REFUSED, Told

X = "x easting east e rechtswert rw ostwert xcoord x_coord coord_x x_koordinate utm_x utm_e x_utm utmx x_m easting_m este coordx rd_x x_rd".split()
Y = "y northing north n hochwert hw nordwert ycoord y_coord coord_y y_koordinate utm_y utm_n y_utm utmy y_m northing_m norte coordy rd_y y_rd".split()
LON = "lon long longitude lng laenge länge laengengrad längengrad lon_dd longitude_deg".split()
LAT = "lat latitude breite breitengrad lat_dd latitude_deg".split()
ID = "id station_id stationid stations_id gauge_id gaugeid gauge station site_id site code stationsnummer pegelnummer pegel messstelle kennung nummer number nr no".split()
NAME = "name station_name stationname gauge_name gaugename bezeichnung stationsname ort label title".split()
DAY = "day date tag datum time timestamp jour fecha".split()
VALUE = "mm value wert reading rain rainfall precipitation niederschlag niederschlagshoehe rs rr p prec precip depth amount".split()
SHEET = "sheet name blatt id".split()
WEST = "west left xmin x_min minx min_x w".split()
SOUTH = "south top ymin y_min miny min_y s bottom_y".split()
EAST = "east right xmax x_max maxx max_x e".split()
NORTH = "north bottom ymax y_max maxy max_y n".split()


def plain(name: str) -> str:
    """A column's name without its unit, its case and its blanks.

    >>> plain("Easting [m]"), plain("Station ID"), plain("X-Koordinate")
    ('easting', 'station_id', 'x_koordinate')
    """
    name = re.sub(r"\s*[\[(].*[\])]\s*$", "", name.strip().lower())
    return re.sub(r"[\s\-.]+", "_", name)


def named(header: list[str], wanted: str, word: str, table: str) -> int:
    """The place of the column that an option names."""
    for place, name in enumerate(header):
        if name == wanted:
            return place
    for place, name in enumerate(header):
        if plain(name) == plain(wanted):
            return place
    raise Told(f"{table}: no column is called {wanted!r} ({word}); there are {', '.join(header)}", REFUSED)


def found(header: list[str], names: list[str], table: str, taken: tuple[int, ...] = ()) -> Optional[int]:
    """The place of the column whose name is the first of these that is there; two of one name are told."""
    plains = [plain(name) for name in header]
    for name in names:
        places = [place for place, own in enumerate(plains) if own == name and place not in taken]
        if len(places) > 1:
            raise Told(f"{table}: {len(places)} columns are called {header[places[0]]!r}: which one is meant is not clear", REFUSED)
        if places:
            return places[0]
    return None
