"""What -o names, by its ending: .gpkg, .svg, .csv, .geojson."""
from __future__ import annotations

from . import files, geopackage, picture, tables
from .answer import Answer
from .told import FAILED, Told

ENDINGS = (".gpkg", ".svg", ".csv", ".geojson", ".json")


def known(name: str) -> bool:
    return name.lower().endswith(ENDINGS)


def write(names: list[str], answer: Answer, title: str, up: bool) -> None:
    """Every output, in the order given."""
    for name in names:
        ending = name.lower().rpartition(".")[2]
        if ending == "gpkg":
            geopackage.write(name, answer)
        elif ending == "svg":
            files.write(name, picture.draw(answer, title, up))
        elif ending == "csv":
            files.write(name, tables.csv_of(answer))
        elif ending in ("geojson", "json"):
            files.write(name, tables.geojson_of(answer))
        else:
            raise Told(f"{name}: the ending says what is made, one of {', '.join(ENDINGS[:4])}", FAILED)
