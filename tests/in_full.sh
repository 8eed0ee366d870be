#!/usr/bin/env bash
# Writes each script of READONLY groups that stands beside this file again with MODE FULL, into the folder that is named: by
# whole tables it has to give what it gives by what changed.
set -eu
here=$(cd "$(dirname "$0")" && pwd)
cd "$1"

for script in "$here"/*.ttc; do
  base=${script%.ttc}
  name=$(basename "$base")_in_full
  grep -q 'CREATE .*READONLY CACHE GROUP' "$script" || continue
  { grep -q 'AUTOREFRESH MODE' "$script" || [ -f "$base.words" ]; } && continue
  sed -E '/CREATE /{
    s/(READONLY CACHE GROUP [A-Z0-9_]+) FROM /\1 AUTOREFRESH MODE FULL FROM /
    s/AUTOREFRESH (INTERVAL|STATE|FROM) /AUTOREFRESH MODE FULL \1 /
  }' "$script" >"$name.ttc"
  grep -q 'MODE FULL' "$name.ttc" || { rm "$name.ttc"; continue; }
  for kind in expected toml status; do
    [ ! -f "$base.$kind" ] || cp "$base.$kind" "$name.$kind"
  done
done
