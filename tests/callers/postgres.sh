#!/bin/sh
# The PostgreSQL extensions of postgres/, on two servers of its own in a temporary folder: the regression tests (make installcheck), and what tests/callers/postgres.py has: the
# build's answers bit for bit, PostGIS beside it, a year of readings, the plans of docs/use/POSTGRES.md on one server and over two, cancelling, memory, dump and
# restore. Nothing is installed on the machine: the servers look for extensions in the folder (Debian's setting extension_destdir).
# Where PostgreSQL 15 or PostGIS is missing it says so, and with YELMUZARD_LIVE=must that is a failure.
#
#   tests/callers/postgres.sh [SECTION ..]    of tests/callers/postgres.py alone, without the regression tests; `keep` leaves the servers for psql and waits for Enter
#
# The servers do not run as root; where this does, they run as the user postgres.
. "$(dirname "$0")/../head.sh"
root=$(pwd -P)
not_run() { # WHAT PACKAGE
    echo "postgres: $1 IS NOT INSTALLED: THE POSTGRESQL EXTENSIONS WERE NOT TRIED (Debian package $2)"
    [ "${YELMUZARD_LIVE-}" != must ] || {
        echo "postgres: YELMUZARD_LIVE=must makes that a failure"
        exit 1
    }
    exit 0
}
config=${PG_CONFIG:-/usr/lib/postgresql/15/bin/pg_config}
bin=/usr/lib/postgresql/15/bin
[ -x "$bin/postgres" ] || not_run "PostgreSQL 15" postgresql-15
if [ ! -x "$config" ] || [ ! -f "$("$config" --pgxs)" ]; then not_run "PostgreSQL's PGXS" postgresql-server-dev-15; fi
[ -f "$("$config" --sharedir)/extension/postgis.control" ] || not_run PostGIS postgresql-15-postgis-3
[ -f "$("$config" --sharedir)/extension/postgres_fdw.control" ] || not_run postgres_fdw postgresql-15
archive=$(sh tests/archive.sh here)

folder=$(mktemp -d)
if [ "$(id -u)" = 0 ]; then
    as() { runuser -u postgres -- "$@"; }
else
    as() { "$@"; }
fi
end() {
    cd /
    for server in one two; do
        [ ! -f "$folder/$server/postmaster.pid" ] || as "$bin/pg_ctl" -D "$folder/$server" -m immediate -w stop >/dev/null 2>&1 || true
    done
    rm -rf "$folder"
}
trap end EXIT
trap 'exit 130' INT
trap 'exit 143' TERM

# built and installed into the folder
cp -r postgres "$folder/postgres"
make -s -C "$folder/postgres" clean ROOT="$root" ARCHIVE="$archive" PG_CONFIG="$config" >/dev/null
make -s -C "$folder/postgres" ROOT="$root" ARCHIVE="$archive" PG_CONFIG="$config" COPT=-Werror
make -s -C "$folder/postgres" install ROOT="$root" ARCHIVE="$archive" PG_CONFIG="$config" DESTDIR="$folder/installed" >/dev/null
# no name of the library or of our C files is seen by other modules, and no text is relocated
seen=$(nm -D --defined-only "$folder/postgres/yelmuzard.so" | awk '{ print $3 }' | grep -vE '^(pg_finfo_)?yelmuzard_|^Pg_magic_func$' || true)
[ -z "$seen" ] || { echo "postgres: other names are seen: $seen" && exit 1; }
# an extension's next version, for ALTER EXTENSION .. UPDATE
cat >"$folder/installed$("$config" --sharedir)/extension/yelmuzard--1.0--1.0test.sql" <<'END'
CREATE FUNCTION yelmuzard_updated() RETURNS boolean LANGUAGE SQL IMMUTABLE AS 'SELECT true';
END
[ "$(id -u)" != 0 ] || chown -R postgres "$folder"
chmod 755 "$folder"
cd "$folder"
port=54321
for server in one two; do
    as "$bin/initdb" -D "$folder/$server" -A trust -U postgres -N --no-locale -E UTF8 >/dev/null
    as tee -a "$folder/$server/postgresql.conf" >/dev/null <<END
listen_addresses = ''
unix_socket_directories = '$folder'
port = $port
fsync = off
synchronous_commit = off
full_page_writes = off
max_worker_processes = 16
extension_destdir = '$folder/installed'
END
    as "$bin/pg_ctl" -D "$folder/$server" -l "$folder/$server.log" -w start >/dev/null || { cat "$folder/$server.log" && exit 1; }
    port=$((port + 1))
done
export PGHOST="$folder" PGPORT=54321 PGUSER=postgres PATH="$bin:$PATH"
case ${1-} in
'')
    as make -s -C "$folder/postgres" installcheck ROOT="$root" ARCHIVE="$archive" PG_CONFIG="$config" >"$folder/said" 2>&1 || {
        cat "$folder/said" "$folder/postgres/regression.diffs"
        exit 1
    }
    grep -E '^test|^ All' "$folder/said"
    ;;
keep)
    echo "PGHOST=$folder PGPORT=54321 PGUSER=postgres"
    read -r _
    set -- none
    ;;
esac
cd "$root"
failed=0
[ "${1-}" = none ] || python3 tests/callers/postgres.py "$@" || failed=1
# a crash of a backend is told in the server's words
for server in one two; do
    ! grep -E 'terminated by signal|PANIC|TRAP' "$folder/$server.log" || failed=1
done
[ $failed = 0 ]
