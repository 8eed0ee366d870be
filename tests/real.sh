#!/usr/bin/env bash
# real.sh PROGRAM [ROUNDS]: the program over real files. What a run leaves the next one finds: behind its end, behind a
# change that `sqlite3` made in between, behind an import, behind rotations, and behind a kill in the middle of durable
# commits, ROUNDS times (10). It prints a line for each of its six parts, and ends with 1 where one isn't as it has to be.
set -u
. "$(dirname "$0")/common.sh"
rounds=${2:-10}
cd "$folder" || exit 1

# Lets the program answer these lines, and compares what it writes.
answers() {
  local wanted=$1 got
  got=$(printf '%s\n' "${@:2}" | "$program" run) || complain "status $? of: ${*:2}"
  [ "$got" = "$wanted" ] || complain "wanted '$wanted', got '$got' of: ${*:2}"
}

table='(ID TT_INTEGER, N TT_INTEGER, PRIMARY KEY (ID))'
answers $'ok 0\nok 0\nok 0\nok 0\nok 1\nok 1\nok 1' \
  "backing: CREATE TABLE A $table" 's1: OPEN' \
  "s1: CREATE ASYNCHRONOUS WRITETHROUGH CACHE GROUP GA FROM A $table" 's1: LOAD CACHE GROUP GA' \
  's1: INSERT INTO A VALUES (3, 30)' 's1: COMMIT' 's1: CALL ttDrain'
answers $'ok 0\n= 3|30\nok 1\nok 1\nok 2' \
  's1: OPEN' 's1: SELECT * FROM A' 's1: INSERT INTO A VALUES (4, 40)' 's1: COMMIT'
answers $'ok 0\n= 3|30\n= 4|40\nok 2' 's1: OPEN' 's1: SELECT * FROM A'
printf 'real: what a run leaves is found\n'

if command -v sqlite3 >/dev/null; then
  rows=$(sqlite3 ttcache.db 'SELECT ID, N FROM A ORDER BY ID') || complain 'sqlite3 fails'
  [ "$rows" = $'3|30\n4|40' ] || complain "sqlite3 reads '$rows'"
  answers $'ok 0\nok 0\nok 0' "backing: CREATE TABLE B $table" 's1: OPEN' \
    "s1: CREATE READONLY CACHE GROUP GB AUTOREFRESH INTERVAL 5 SECONDS FROM B $table"
  sqlite3 ttcache.db 'INSERT INTO B VALUES (7, 70)' || complain 'sqlite3 writes nothing'
  answers $'ok 0\nok 1\n= 7|70\nok 1' 's1: OPEN' 's1: LOAD CACHE GROUP GB' 's1: SELECT * FROM B'
  sqlite3 ttcache.db 'UPDATE B SET N = 71' || complain 'sqlite3 updates nothing'
  answers $'ok 0\n= 7|71\nok 1' 's1: OPEN' 's1: SELECT * FROM B'
  printf 'real: sqlite3 reads what was drained, and what it writes is loaded\n'
else
  printf 'real: no sqlite3 here, so nothing is said of it\n'
fi

# Lets the program import this text into a table, and compares its reply.
imports() {
  local wanted=$1 got
  got=$(printf '%b' "$3" | "$program" import "$2") || complain "status $? of an import into $2"
  [ "$got" = "$wanted" ] || complain "wanted '$wanted', got '$got' of an import into $2"
}
answers 'ok 0' "backing: CREATE TABLE I $table"
imports 'ok 2' I 'ID,N\n4,40\n5,\n'
imports 'no 107 I 4' I 'ID,N\n4,40\n5,\n'
answers $'ok 0\n= 4|40\n= 5|NULL\nok 2' 's1: OPEN PASSTHROUGH 1' 's1: SELECT * FROM I'
printf 'real: an import is kept whole, and one that breaks a rule changes nothing\n'

# Durable commits of 80,000 bytes with drains between: both slots stay short, and the next run has rows and tickets.
rm -f ttcache.*
printf 'rotate_bytes = 1048576\n' >ttcache.toml
wide='(ID TT_INTEGER, N TT_INTEGER, V VARCHAR2(4000), PRIMARY KEY (ID))'
long_text=$(head -c 2000 /dev/zero | tr '\0' x)
{
  printf '%s\n' "backing: CREATE TABLE A $wide" 's1: OPEN DURABLE 1' \
    "s1: CREATE ASYNCHRONOUS WRITETHROUGH CACHE GROUP GA FROM A $wide" 's1: LOAD CACHE GROUP GA'
  seq -f "s1: INSERT INTO A VALUES (%.0f, 0, 'x')" 1 20
  for ((i = 1; i <= 60; i++)); do
    printf 's1: %s\n' "UPDATE A SET N = $i, V = '$long_text' WHERE ID > 0" COMMIT 'CALL ttDrain'
  done
} >lines
"$program" run <lines >replies || complain "status $? of rotations"
[ "$(grep -c '^ok [0-9]*$' replies)" = $(wc -l <lines) ] || complain 'a line behind a rotation is refused'
for slot in ttcache.j0 ttcache.j1; do
  [ "$(wc -c <"$slot")" -le 1200000 ] || complain "$slot has $(wc -c <"$slot") bytes"
done
answers $'ok 0\n= 20|60|60\nok 1\nok 1\nok 61' \
  's1: OPEN' 's1: SELECT COUNT(*), MIN(N), MAX(N) FROM A' 's1: INSERT INTO A VALUES (21, 61, NULL)' 's1: COMMIT'
rm -f ttcache.toml
printf 'real: a journal that is begun anew stays short, and nothing of it is lost\n'

# A generated script is answered the same, whether its journal is begun anew on the way or not.
rm -f ttcache.*
"$program" make 200000 >lines || complain "status $? of make"
for bytes in 1048576 1073741824; do
  rm -f ttcache.db* ttcache.j?
  printf 'rotate_bytes = %s\n' "$bytes" >ttcache.toml
  "$program" run <lines >"replies_$bytes" || complain "status $? of a generated script"
  # (the last byte of the generation of slot 1, which has none at first)
  begun[bytes]=$(od -An -tu1 -j9 -N1 ttcache.j1 2>/dev/null | tr -d ' ')
done
cmp -s replies_1048576 replies_1073741824 || complain 'a journal that is begun anew changes a reply'
[ "${begun[1048576]:-0}" -ge 2 ] || complain 'the journal of a generated script is never begun anew'
[ "${begun[1073741824]:-0}" = 0 ] || complain 'a short journal is begun anew'
rm -f ttcache.toml
printf 'real: a generated script is answered the same, whether its journal is begun anew or not\n'

# A run of durable commits is killed in the middle: each that was answered is there, in order, and none twice.
rm -f ttcache.*
answers $'ok 0\nok 0\nok 0\nok 0' "backing: CREATE TABLE A $table" 's1: OPEN' \
  "s1: CREATE ASYNCHRONOUS WRITETHROUGH CACHE GROUP GA FROM A $table" 's1: LOAD CACHE GROUP GA'
kept=0
for ((round = 1; round <= rounds; round++)); do
  {
    printf 's1: OPEN DURABLE 1\n'
    for ((i = 1; i <= 20000; i++)); do printf 's1: INSERT INTO A VALUES (%s, %s)\ns1: COMMIT\n' $((kept + i)) "$round"; done
  } >lines
  # (a run that is killed before it began would leave the replies of the round before)
  : >replies
  "$program" run <lines >replies &
  sleep "0.$((RANDOM % 4))$((RANDOM % 10))"
  kill -9 $! 2>/dev/null
  wait $! 2>/dev/null
  # (the first reply is that of OPEN; then two for each commit, the last of which may be cut)
  answered=$((($(grep -c '^ok [0-9]*$' replies) - 1) / 2))
  [ "$answered" -ge 0 ] || answered=0
  found=$(printf 's1: OPEN\ns1: SELECT COUNT(*), MAX(ID) FROM A\n' | "$program" run | sed -n 's/^= //p')
  count=${found%|*}
  [ "$count" -ge $((kept + answered)) ] || complain "round $round: $((kept + answered)) were answered, $count are there"
  [ "$count" = 0 ] || [ "${found#*|}" = "$count" ] || complain "round $round: $count rows up to ${found#*|}"
  kept=$count
done
printf 'real: %s kills, %s commits, none that was answered is lost\n' "$rounds" "$kept"
exit "$wrong"
