#!/bin/sh
# Audits a station's day, and makes its rows: NAME.sales.csv, NAME.decisions.csv and NAME.events.csv in the folder
# `rows`, with the station's name in front of each row and without a header. If the journal is refused or anything fails,
# there is none of them: standard error says why, and the status isn't 0.
# usage: station.sh FOLDER    FOLDER has site.toml, day.journal and, for a day that began with an opening, day.opening.
#                             Its name is the station's: letters, digits, '.', '_', '-'
set -eu
name=$(basename "$1")
case $name in
    '' | *[!A-Za-z0-9._-]*)
        echo "station.sh: $name: a station's name has letters, digits, '.', '_' and '-' alone" >&2
        exit 2
        ;;
esac
mkdir -p rows
for kind in sales decisions events; do rm -f "rows/$name.$kind.csv"; done
made=$(mktemp -d)
trap 'rm -rf "$made"' EXIT
opening=''
[ ! -e "$1/day.opening" ] || opening="--opening=$1/day.opening"
for kind in sales decisions events; do
    # By `env`, since some shells have a command of their own that is named fc.
    env "${FC:-fc}" export ${opening:+"$opening"} "$kind" "$1/site.toml" "$1/day.journal" >"$made/part"
    sed "1d; s/^/$name,/" "$made/part" >"$made/$name.$kind.csv"
done
mv "$made/$name".*.csv rows/
