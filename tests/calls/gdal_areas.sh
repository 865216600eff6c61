#!/bin/sh
# The areas of pieces beside GDAL's: every piece of the examples, the stored meshes and the maps, with the area that voronoi_areas gives it and the
# polygon that voronoi_cell_wkb writes of it (tests/calls/table.c); GDAL's ST_Area of the polygon, which is SpatiaLite's, is within 2e-13 of the area's
# magnitude. It is a float formula, so equality is not expected of it. Where GDAL is missing, or has no SpatiaLite, it says so.
. "$(dirname "$0")/../head.sh"
command -v ogrinfo >/dev/null || {
    echo "gdal_areas: GDAL IS NOT INSTALLED: no area was held to ST_Area (Debian package gdal-bin)"
    exit 0
}
program=target/tests/table
sh tests/archive.sh keep "$program" tests/calls/table.c
folder=$(mktemp -d)
trap 'rm -rf "$folder"' EXIT
meshes=0
echo mesh,site,area,geometry >"$folder/cells.csv"
for text in examples/*.txt harness/meshes/*.txt tests/programs/cells/*.txt docs/maps/*.txt; do
    tools/mesh encode --long "$text" >"$folder/form" 2>/dev/null
    status=0
    sh tests/archive.sh run "$program" <"$folder/form" >"$folder/pieces" 2>/dev/null || status=$?
    case $status in 0 | 3) ;; *) continue ;; esac
    sed "1d; s|^|$text,|" "$folder/pieces" >>"$folder/cells.csv"
    meshes=$((meshes + 1))
done
ask() { # SQL
    ogrinfo -ro -q "$folder/cells.csv" -oo GEOM_POSSIBLE_NAMES=geometry -oo KEEP_GEOM_COLUMNS=NO -oo AUTODETECT_TYPE=YES -dialect SQLITE -sql "$1"
}
ask "SELECT spatialite_version() AS version" 2>/dev/null | grep -q '^  version ' || {
    echo "gdal_areas: THIS GDAL HAS NO SPATIALITE: no area was held to its ST_Area"
    exit 0
}
ask "SELECT count(*) AS many, sum(area = 0) AS none, sum(area < 0) AS below, max(abs(coalesce(ST_Area(geometry), 0) - abs(area)) / abs(area)) AS worst,
    sum(area = 0 AND coalesce(ST_Area(geometry), 0) > 0) AS wrong FROM cells" >"$folder/said"
awk -v meshes="$meshes" -v lines="$(wc -l <"$folder/cells.csv")" '
    $2 == "(Integer)" || $2 == "(Real)" { got[$1] = $NF }
    END {
        printf "gdal_areas: %d pieces of %d meshes, %d of area 0 and %d below 0: each is within %.1e of ST_Area\n", got["many"], meshes, got["none"], got["below"], got["worst"]
        exit !(got["many"] == lines - 1 && meshes > 15 && got["wrong"] == 0 && "worst" in got && got["worst"] < 2e-13)
    }' "$folder/said" || {
    cat "$folder/said"
    exit 1
}
