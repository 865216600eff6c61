"""Pieces as a GeoPackage, written by GDAL (ogr2ogr): the layer `pieces` with its reference system, a spatial index, and a style that QGIS takes by itself."""
from __future__ import annotations

import csv
import os
import sqlite3
import subprocess
import tempfile

from . import files, style
from .answer import Answer
from .tables import columns_of, head
from .told import FAILED, Told

LAYER = "pieces"
COLUMN = {int: "Integer64", float: "Real"}


def write(name: str, answer: Answer) -> None:
    """The GeoPackage is made beside its place and then takes its name, so that it is whole or told."""
    place = os.path.dirname(os.path.realpath(name))
    try:
        folder = tempfile.TemporaryDirectory(prefix=".yelmuzard-", dir=place)
    except OSError as error:
        raise Told(f"{name} could not be written: {error.strerror}", FAILED) from None
    with folder:
        made = os.path.join(folder.name, "made.gpkg")
        try:
            source(os.path.join(folder.name, "pieces.csv"), answer)
            run(["ogr2ogr", "-f", "GPKG", made, os.path.join(folder.name, "pieces.csv"), "-oo", "GEOM_POSSIBLE_NAMES=geometry", "-oo", "KEEP_GEOM_COLUMNS=NO",
                 "-oo", "EMPTY_STRING_AS_NULL=YES", "-nln", LAYER, "-nlt", "POLYGON", "-lco", "GEOMETRY_NAME=geom", "-lco", "SPATIAL_INDEX=YES"]
                + (["-a_srs", answer.crs] if answer.crs else []), name)
            styled(made, answer)
            with open(made, "rb") as file:
                os.fsync(file.fileno())
            if os.path.exists(name) and not os.path.isfile(name):
                files.write(name, files.read(made))
            else:
                os.replace(made, os.path.realpath(name))
        except (OSError, sqlite3.Error) as error:
            raise Told(f"{name} could not be written: {getattr(error, 'strerror', None) or error} (is the disk full?)", FAILED) from None


def source(name: str, answer: Answer) -> None:
    """The table that ogr2ogr reads, and beside it the types of its columns: an id stays text."""
    names, columns = head(answer), columns_of(answer)
    types = []
    for column in columns:
        kinds = {type(cell) for cell in column if cell is not None and cell != ""}
        types.append(COLUMN.get(kinds.pop(), "String") if len(kinds) == 1 else "String")
    with open(name, "w", encoding="utf-8", newline="") as file:
        writer = csv.writer(file, lineterminator="\n")
        writer.writerow(names + ["geometry"])
        for k in range(len(answer.gauges)):
            writer.writerow(["" if column[k] is None else repr(column[k]) if isinstance(column[k], float) else column[k] for column in columns] + [answer.wkb[k].hex()])
    with open(name + "t", "w", encoding="ascii") as file:
        file.write(",".join(f'"{kind}"' for kind in types + ["WKT"]) + "\n")


def run(words: list[str], name: str) -> None:
    try:
        ran = subprocess.run(words, stdout=subprocess.DEVNULL, stderr=subprocess.PIPE, env={**os.environ, "OGR_CURRENT_DATE": moment()})
    except FileNotFoundError:
        raise Told("ogr2ogr is missing, which writes a GeoPackage (Debian package gdal-bin); pieces.csv, .geojson and .svg need nothing", FAILED) from None
    said = ran.stderr.decode(errors="replace").strip()
    if ran.returncode or "ERROR" in said:
        raise Told(f"{name} could not be written: ogr2ogr: {(said.splitlines() or ['it failed'])[0]}", FAILED)


def moment() -> str:
    return style.now().strftime("%Y-%m-%dT%H:%M:%S.000Z")


def styled(name: str, answer: Answer) -> None:
    """The table layer_styles as QGIS makes it, with one style that is the default."""
    base = sqlite3.connect(name)
    with base:
        base.execute("""CREATE TABLE layer_styles (id INTEGER PRIMARY KEY AUTOINCREMENT NOT NULL, f_table_catalog TEXT(256), f_table_schema TEXT(256),
            f_table_name TEXT(256), f_geometry_column TEXT(256), styleName TEXT(30), styleQML TEXT, styleSLD TEXT, useAsDefault BOOLEAN,
            description TEXT, owner TEXT(30), ui TEXT(30), update_time DATETIME DEFAULT (strftime('%Y-%m-%dT%H:%M:%fZ','now')))""")
        base.execute("INSERT INTO layer_styles (f_table_catalog, f_table_schema, f_table_name, f_geometry_column, styleName, styleQML, styleSLD, useAsDefault, "
                     "description, owner, ui, update_time) VALUES ('', '', ?, 'geom', 'pieces', ?, '', 1, 'pieces by their size', '', '', ?)",
                     (LAYER, style.qml(answer), moment()))
        base.execute("INSERT INTO gpkg_contents (table_name, data_type, identifier, description, last_change, srs_id) "
                     "VALUES ('layer_styles', 'attributes', 'layer_styles', '', ?, 0)", (moment(),))
    base.close()
