#!/usr/bin/env bash
# Writes scripts that are too many or too long to keep, each with what it gives, into the folder that is named: NAME.ttc or
# NAME.drill, NAME.expected, and NAME.status where the status isn't 0.
set -eu
here=$(cd "$(dirname "$0")" && pwd)
cd "$1"

# Runs that crash, and journals that are made by hand.
bash "$here/crashes.sh" .
bash "$here/journals.sh" .

# Sets that are read whole.
bash "$here/in_full.sh" .

table='backing: CREATE TABLE A (ID TT_BIGINT PRIMARY KEY)'
group='s1: CREATE ASYNCHRONOUS WRITETHROUGH CACHE GROUP GA FROM A (ID TT_BIGINT PRIMARY KEY)'
nothing=$'-- history\n-- tables'

# A byte, so many times.
many() { head -c "$2" /dev/zero | tr '\0' "$1"; }

# A drill that plans the lines of the second argument and then has the input of the file, its status, and what it gives.
drill() {
  { printf '%s\n' "$2"; cat "$3"; } >"$1.drill"
  [ "$4" = 0 ] || printf '%s\n' "$4" >"$1.status"
  printf '%s\n' "$5" >"$1.expected"
}

# Words and settings that are refused, and that aren't. A comment has no reply.
printf '#\n' >comment
drill no_words '! words' comment 1 "$nothing"
drill other_words $'! words fly\n! settings x = 1' comment 1 "$nothing"
drill check_words '! words check' comment 0 "$nothing"
drill no_workers '! settings workers = 0' comment 2 "$nothing"
drill unknown_setting $'! words check\n! settings x = 1' comment 2 "$nothing"
drill sixteen_workers '! settings workers = 16' comment 0 "$nothing"
printf '\n\r\n# a comment\r\n\n#' >silent
: >empty
drill no_input '! note Nothing comes.' empty 0 "$nothing"

# A line that is one chain of 8,001 terms.
{
  printf '%s\n' "$table" 's1: OPEN' "$group"
  printf 's1: SELECT * FROM A WHERE 1=1'
  printf ' AND 1=1%.0s' $(seq 8000)
  printf '\n'
} >chain
drill one_chain '! note One chain.' chain 0 $'ok 0\nok 0\nok 0\nok 0\n-- history\n1 definition of A\n-- tables\nA'

# The generated script of a number, by the shell's own numbers of 64 bits. The upper 31 bits of a state are drawn from.
generated() {
  local x=$1 kind key i
  draw() { x=$((x * 6364136223846793005 + 1442695040888963407)); drawn=$((((x >> 33) & 0x7fffffff) % $1)); }
  printf 'backing: CREATE TABLE %s, PRIMARY KEY (ID))\n' 'C (ID TT_INTEGER, NAME VARCHAR2(20)' 'R (ID TT_INTEGER, V TT_BIGINT'
  printf 's1: %s\n' OPEN \
    'CREATE ASYNCHRONOUS WRITETHROUGH CACHE GROUP GC FROM C (ID TT_INTEGER, NAME VARCHAR2(20), PRIMARY KEY (ID))' \
    'CREATE READONLY CACHE GROUP GR AUTOREFRESH INTERVAL 5 SECONDS FROM R (ID TT_INTEGER, V TT_BIGINT, PRIMARY KEY (ID))' \
    'LOAD CACHE GROUP GR'
  for ((i = 1; i <= $1; i++)); do
    draw 8; kind=$drawn
    draw 100; key=$drawn
    case $kind in
      0) echo "s1: INSERT INTO C VALUES ($key, 'n$i')" ;;
      1) echo "s1: UPDATE C SET NAME = 'u$i' WHERE ID = $key" ;;
      2) echo "s1: DELETE FROM C WHERE ID = $key" ;;
      3) echo "s1: SELECT * FROM C WHERE ID = $key" ;;
      4) echo 's1: COMMIT' ;;
      5) echo "backing: INSERT INTO R VALUES ($key, $i)" ;;
      6) echo 'clock: +1000' ;;
      7) echo 's1: CALL ttDrain' ;;
    esac
  done
  printf 's1: COMMIT\ns1: CALL ttDrain\n'
}

# What its run comes to, against the keys that awk keeps: an INSERT of a key that is there is refused, a COMMIT of writes has a
# ticket, and all that is committed comes to the backing database behind the two tables and the rows of R.
summed() {
  generated "$1" | awk -F'[(, ]+|= ' '
  function key() { return $NF + 0 }
  { requests++ }
  /INSERT INTO C/ { if ($6 in c) { no++; next } c[$6]; writes++ }
  /UPDATE C/ { if (key() in c) writes++ }
  /DELETE FROM C/ { if (key() in c) { delete c[key()]; writes++ } }
  /INSERT INTO R/ { if ($6 in r) { no++; next } r[$6]; rows++ }
  /COMMIT/ { if (writes) tickets++; writes = 0 }
  END { printf "requests %d\nok %d no %d fault 0\ntickets %d entries %d\n", requests, requests - no, no, tickets, 2 + rows + tickets }'
}
for number in 0 1 7 100; do
  : >"make_$number.ttc"
  echo "make $number" >"make_$number.words"
  generated "$number" >"make_$number.expected"
done
for number in 0 1 100 1000; do
  : >"bench_$number.ttc"
  echo "bench $number" >"bench_$number.words"
  summed "$number" >"bench_$number.expected"
done

# The script in pieces, with a sink that fails at the third, and without an input: no command of scripts reads one.
generated 7 >script
drill make_in_pieces $'! words make 7\n! pieces 100\n! source 1' empty 0 "$(cat script)"$'\n'"$nothing"
drill make_with_a_broken_sink $'! words make 7\n! pieces 100\n! sink 3' empty 4 "$(head -c 200 script)"$'<cut>\n'"$nothing"
drill bench_in_pieces $'! words bench 1\n! pieces 1\n! source 1' empty 0 \
  $'requests 9\nok 9 no 0 fault 0\ntickets 0 entries 2\n'"$nothing"
drill bench_with_a_broken_sink $'! words bench 0\n! pieces 1\n! sink 11' empty 4 $'requests 8<cut>\n'"$nothing"

# A line of each kind, checked: taken, wrong at a byte, without a label, silent. The last has no line feed.
printf '%s\n' 's1: OPEN' 's9: COMMIT' 's1: SELEC * FROM A' 's1: SELECT * FROM' '' '# SELEC' 's1 COMMIT' 's1:' COMMIT \
  $'backing: INSERT INTO A VALUES (1, 2);\r' 'backing: COMMIT' >lines
printf 's1: COMMIT' >>lines
ended=$'ok 0\nok 0\nno 101 4\nno 101 17\nno 101 3\nno 101 3\nno 101 0\nok 0\nno 101 9'
check=$'! words check\n! pieces'
for size in 1 2 7; do
  drill "silent_$size" "! pieces $size" silent 0 "$nothing"
  drill "checked_$size" "$check $size" lines 0 "$ended"$'\nok 0\n'"$nothing"
done
drill checked_with_a_broken_sink "$check 1"$'\n! sink 14' lines 4 $'ok 0\nok 0\nno <cut>\n'"$nothing"
drill checked_with_a_broken_source $'! words check\n! source 2' lines 3 "$ended"$'\n'"$nothing"

# Lines of 65,536 bytes and of one more.
{ many '#' 65536; echo; } >within
{ many '#' 65537; echo; } >past
{ cat past; many - 65537; } >unended
{ many x 70000; echo; many y 70000; echo; } >two
long='no 119 line'
drill line_of_65536 '! pieces 65536' within 0 "$nothing"
for size in 7 65536; do
  drill "line_of_65537_$size" "! pieces $size" past 0 "$long"$'\n'"$nothing"
done
drill the_end_ends_a_line '! pieces 65536' unended 0 "$long"$'\n'"$long"$'\n'"$nothing"
drill a_fault_ends_no_line '! source 4' unended 3 "$long"$'\n'"$nothing"
drill no_line '! source 1' within 3 "$nothing"
drill a_slow_sink '! pieces 1' two 0 "$long"$'\n'"$long"$'\n'"$nothing"
drill a_broken_sink $'! pieces 1\n! sink 12' two 4 "$long"$'<cut>\n'"$nothing"
drill a_full_sink '! pieces 0' two 4 "$nothing"
{ cat past; echo 's1: OPEN'; } >behind
drill behind_a_long_line '! pieces 65536' behind 0 "$long"$'\nok 0\n'"$nothing"
{ cat within past; echo 's1: OPEN'; } >behind
drill checked_behind_a_long_line '! words check' behind 0 "$long"$'\nok 0\n'"$nothing"

# The first run, in pieces, and with a sink that fails at each byte. A line whose reply breaks off was answered.
{
  echo 'backing: CREATE TABLE A (ID TT_INTEGER, N TT_INTEGER, PRIMARY KEY (ID))'
  echo 's1: OPEN'
  echo 's1: CREATE ASYNCHRONOUS WRITETHROUGH CACHE GROUP GA FROM A (ID TT_INTEGER, N TT_INTEGER, PRIMARY KEY (ID))'
  printf 's1: %s\n' 'INSERT INTO A VALUES (3, 30)' COMMIT 'SELECT * FROM A' 'CALL ttDrain' 'CALL ttDrain'
} >first
replies=$'ok 0\nok 0\nok 0\nok 1\nok 1\n= 3|30\nok 1\nok 1\nok 0\n'
defined=$'-- history\n1 definition of A\n'
undrained="$defined"$'-- tables\nA'
drained="$defined"$'2 ticket 1\n  insert A 3|30\n-- tables\nA\n= 3|30'
for size in 1 2 7 65536; do
  drill "first_run_$size" "! pieces $size" first 0 "$replies$drained"
done
for ((byte = 1; byte <= ${#replies}; byte++)); do
  front=${replies:0:byte-1}
  case $front in '' | *$'\n') ;; *) front+=$'<cut>\n' ;; esac
  # Those before the drain's reply are 37.
  if [ "$byte" -le 37 ]; then left=$undrained; else left=$drained; fi
  drill "first_run_sink_$byte" $'! pieces 1\n! sink '"$byte" first 4 "$front$left"
done

# Three transactions, of which each in turn fails before its effect, after it, or wants memory. The next drain goes on.
{
  printf '%s\n' "$table" 's1: OPEN' "$group"
  for ticket in 1 2 3; do printf 's1: INSERT INTO A VALUES (%s)\ns1: COMMIT\n' "$ticket"; done
  printf 's1: CALL ttDrain\ns1: CALL ttDrain\ns1: CALL ttDrain\n'
} >drains
begun=$'ok 0\nok 0\nok 0\nok 1\nok 1\nok 1\nok 2\nok 1\nok 3\n'
three=$'1 definition of A\n2 ticket 1\n  insert A 1\n3 ticket 2\n  insert A 2\n4 ticket 3\n  insert A 3\n'
settled=$'-- history\n'"$three"$'-- tables\nA\n= 1\n= 2\n= 3'
for call in 1 2 3; do
  ends=$'\nok '$((4 - call))$'\nok 0\n'"$settled"
  drill "drain_${call}_before" "! fail apply_once $call before" drains 0 "${begun}fault 201$ends"
  drill "drain_${call}_after" "! fail apply_once $call after" drains 0 "${begun}fault 201$ends"
  drill "drain_${call}_memory" "! refuse apply_once $call" drains 0 "${begun}fault 299$ends"
done

# A script, whose lines and replies follow; it begins with one table, a session and a group.
script() {
  name=$1
  : >"$name.ttc"
  : >"$name.expected"
  line "$table" 'ok 0'
  line 's1: OPEN' 'ok 0'
  line "$group" 'ok 0'
}
line() { printf '%s\n' "$1" >>"$name.ttc"; printf '%s\n' "$2" >>"$name.expected"; }

# Inserts of the numbers from one on up to another.
inserts() {
  seq -f 's1: INSERT INTO A VALUES (%.0f)' "$1" "$2" >>"$name.ttc"
  seq "$1" "$2" | sed 's/.*/ok 1/' >>"$name.expected"
}

# A transaction has 10,000 operations. 106 comes before 119, and 107 behind it.
script limit_of_operations
inserts 0 9999
line 's1: INSERT INTO A VALUES (10000)' 'no 119 ops'
line 's1: INSERT INTO A VALUES (NULL)' 'no 106 ID'
line 's1: INSERT INTO A VALUES (0)' 'no 119 ops'
line 's1: COMMIT' 'ok 1'
inserts 10000 10000

# An answer has 100,000 rows.
script limit_of_an_answer
for ticket in 1 2 3 4 5 6 7 8 9 10; do
  inserts $((10000 * ticket - 10000)) $((10000 * ticket - 1))
  line 's1: COMMIT' "ok $ticket"
done
echo 's1: SELECT * FROM A' >>"$name.ttc"
seq -f '= %.0f' 0 99999 >>"$name.expected"
echo 'ok 100000' >>"$name.expected"
inserts 100000 100000
line 's1: SELECT * FROM A' 'no 119 answer'

# 4,096 tickets are pending.
script limit_of_tickets
seq -f $'s1: INSERT INTO A VALUES (%.0f)\ns1: COMMIT' 1 4096 >>"$name.ttc"
seq -f $'ok 1\nok %.0f' 1 4096 >>"$name.expected"
line 's1: COMMIT' 'ok 0'
inserts 0 0
line 's1: COMMIT' 'no 119 pending'
line 's1: CALL ttDrain' 'ok 4096'
line 's1: COMMIT' 'ok 4097'

# There are 64 groups. 113 and 114 come before the limit.
script limit_of_groups
for number in $(seq 1 64); do line "backing: CREATE TABLE T$number (ID TT_BIGINT PRIMARY KEY)" 'ok 0'; done
kind='s1: CREATE ASYNCHRONOUS WRITETHROUGH CACHE GROUP'
for number in $(seq 1 63); do line "$kind G$number FROM T$number (ID TT_BIGINT PRIMARY KEY)" 'ok 0'; done
line "$kind G64 FROM T64 (ID TT_BIGINT PRIMARY KEY)" 'no 119 groups'
line "$kind G63 FROM T63 (ID TT_BIGINT PRIMARY KEY)" 'no 113 G63'
line "$kind G FROM A (ID TT_BIGINT PRIMARY KEY)" 'no 114 d'

# A table of so many columns, and its reply.
wide() {
  columns=$(seq -f ', C%.0f TT_INTEGER' 1 $(($1 - 1)) | tr -d '\n')
  line "backing: CREATE TABLE W$1 (C0 TT_INTEGER PRIMARY KEY$columns)" "$2"
}

# There are 256 tables of 64 columns. 119 of the tables comes before that of the columns, and 113 and 104 before both.
script limit_of_tables
wide 64 'ok 0'
wide 65 'no 119 columns'
for number in $(seq 2 255); do line "backing: CREATE TABLE T$number (ID TT_BIGINT PRIMARY KEY)" 'ok 0'; done
wide 65 'no 119 tables'
line 'backing: CREATE TABLE T2 (ID TT_BIGINT)' 'no 113 T2'
line 'backing: CREATE TABLE T1 (ID TT_BIGINT)' 'no 104'

# Transactions of three writes, each from the same rows, against a list of rows that awk keeps: P (ID, N); C (ID, PID), which
# leaves with nothing; K (ID, PID), which leaves with its parent. All of 12 writes in each place: 1,728 transactions.
awk '
function has(table, id) { return (table, id) in row }
function orphan(table, parent) { return table != "P" && !has("P", parent) }
# The rows of a table in key order, into found; how many.
function find(table,   id, count) {
  for (id = 0; id < 10; id++) if (has(table, id)) found[++count] = id
  return count + 0
}
function told(verb, table, id) { return "  " verb " " table " " id "|" row[table, id] "\n" }
function insert(table, id, other) { row[table, id] = other; done = done told("insert", table, id) }
function leave(table, id) { done = done told("delete", table, id); delete row[table, id] }
function leave_all(table,   count, i) { count = find(table); for (i = 1; i <= count; i++) leave(table, found[i]); return count }
# The rows that each transaction begins with. What was there leaves first.
function begin() {
  rows = leave_all("C") + leave_all("K") + leave_all("P")
  insert("P", 1, 10); insert("P", 2, "NULL"); insert("P", 3, 4)
  insert("C", 4, 1); insert("C", 5, 3); insert("K", 6, 1); insert("K", 7, 2)
  rows += 7
}
# Does a write, or tells the rule that it breaks.
function write(verb, table, id, other,   i, count) {
  if (verb == "insert") {
    if (has(table, id)) return "no 107 " table " " id
    if (orphan(table, other)) return "no 108 P " other
    insert(table, id, other); rows++
  } else if (verb == "update" && has(table, id)) {
    if (orphan(table, other)) return "no 108 P " other
    done = done "  update " table " " id "|" row[table, id] " to " id "|" other "\n"
    row[table, id] = other; rows++
  } else if (verb == "delete" && has(table, id)) {
    if (table == "P") {
      count = find("C")
      for (i = 1; i <= count; i++) if (row["C", found[i]] == id) return "no 109 C " found[i]
      count = find("K")
      for (i = 1; i <= count; i++) if (row["K", found[i]] == id) leave("K", found[i])
    }
    leave(table, id); rows++
  }
  return ""
}
function spelt(verb, table, id, other) {
  if (verb == "insert") return "INSERT INTO " table " VALUES (" id "," other ")"
  if (verb == "delete") return "DELETE FROM " table " WHERE ID = " id
  return "UPDATE " table " SET " (table == "P" ? "N" : "PID") " = " other " WHERE ID = " id
}
function entry(reply) {
  print reply >"three_writes.expected"
  if (reply ~ /^ok/) printf "%d others\n%s", ++entries, done >"history"
  done = ""
}
# The three writes, and what is left: all of it, or what was there before.
function transact(a, b, c,   line, saved, key, broken, i, part) {
  print "backing: DELETE FROM C; DELETE FROM K; DELETE FROM P; INSERT INTO P VALUES (1,10); INSERT INTO P VALUES (2,NULL); INSERT INTO P VALUES (3,4); INSERT INTO C VALUES (4,1); INSERT INTO C VALUES (5,3); INSERT INTO K VALUES (6,1); INSERT INTO K VALUES (7,2)" >"three_writes.drill"
  begin(); entry("ok " rows)
  for (key in row) saved[key] = row[key]
  rows = 0
  line = "backing: "
  place[1] = a; place[2] = b; place[3] = c
  for (i = 1; i <= 3; i++) {
    split(writes[place[i]], part, " ")
    line = line (i > 1 ? "; " : "") spelt(part[1], part[2], part[3], part[4])
    if (broken == "") broken = write(part[1], part[2], part[3], part[4])
  }
  print line >"three_writes.drill"
  if (broken == "") { entry("ok " rows); return }
  delete row
  for (key in saved) row[key] = saved[key]
  entry(broken)
}
BEGIN {
  count = split("insert P 4 40,insert P 1 1,insert C 8 4,insert K 8 1,update P 2 5,update C 4 2,update K 7 9,delete P 1,delete P 2,delete P 4,delete C 4,delete K 7", writes, ",")
  print "! joined" >"three_writes.drill"
  entries = split("P C V T K", tables, " ")
  print "-- history" >"history"
  for (i = 1; i <= entries; i++) print i " definition of " tables[i] >"history"
  for (a = 1; a <= count; a++) for (b = 1; b <= count; b++) for (c = 1; c <= count; c++) transact(a, b, c)
  print "-- tables" >"history"
  for (i = 1; i <= 5; i++) {
    print tables[i] >"history"
    count = find(tables[i])
    for (b = 1; b <= count; b++) print "= " found[b] "|" row[tables[i], found[b]] >"history"
  }
}'
cat history >>three_writes.expected

# A journal of more than rotate_bytes is begun anew by the drain behind it, in the other slot: with the mark, the definitions, the
# STATE and the flag, and what is committed later stands behind them. 150 rows get a text of 3,600 bytes, and lose it again: of
# the first commit the updates alone take more than 2^20 bytes.
text() { printf %s "$1" | od -An -v -tx1 | tr -d ' \n'; }
spelt() { printf '05%08x' ${#1}; text "$1"; }
long_text=$(many x 3600)
{
  printf '! note A journal that is long is begun anew by the drain, and goes on.\n! settings rotate_bytes = 1048576\n! slots\n'
  echo 'backing: CREATE TABLE A (K TT_INTEGER, V VARCHAR2(4000), PRIMARY KEY (K))'
  echo 'backing: CREATE TABLE B (K TT_INTEGER, PRIMARY KEY (K))'
  echo 's1: OPEN'
  echo 's1: CREATE ASYNCHRONOUS WRITETHROUGH CACHE GROUP G FROM A (K TT_INTEGER, V VARCHAR2(4000), PRIMARY KEY (K))'
  echo 's1: CREATE READONLY CACHE GROUP R AUTOREFRESH MODE FULL INTERVAL 5 SECONDS FROM B (K TT_INTEGER, PRIMARY KEY (K))'
  echo 's1: LOAD CACHE GROUP G'
  seq -f "s1: INSERT INTO A VALUES (%.0f, 'a')" 1 150
  printf 's1: UPDATE A SET V = '"'%s'"' WHERE K > 0\n' "$long_text" b
  printf 's1: %s\n' COMMIT 'CALL ttDrain' "INSERT INTO A VALUES (200, 'c')" COMMIT 'CALL ttDrain'
} >a_long_journal_is_begun_anew.drill
number() { printf '01%016x' "$1"; }
told_text() { printf '02%04x' ${#1}; text "$1"; }
begun_group=$(spelt 'CREATE ASYNCHRONOUS WRITETHROUGH CACHE GROUP G FROM A ( K TT_INTEGER NOT NULL , V VARCHAR2 ( 4000 ) , PRIMARY KEY ( K ) )')
begun_other=$(spelt 'CREATE READONLY CACHE GROUP R AUTOREFRESH MODE FULL INTERVAL 5000 MILLISECONDS STATE PAUSED FROM B ( K TT_INTEGER NOT NULL , PRIMARY KEY ( K ) )')
batch() { printf '01%08x%s' $((${#1} / 2)) "$1"; }
first_commit() {
  printf '01%016x%04x' 1 450
  for ((k = 1; k <= 150; k++)); do printf '01014102%s%s' "$(number $k)" "$(told_text a)"; done
  # (the told bytes end within the updates)
  printf '020141'
  printf '02%s%s02%s%s' "$(number 1)" "$(told_text a)" "$(number 1)" "$(told_text "$long_text")"
}
committed=$(first_commit)
lengths=$((11 + 150 * 17 + 150 * (3 + 14 + 12 + 3600 + 1) + 150 * (3 + 12 + 3600 + 1 + 14)))
{
  printf 'ok 0\n%.0s' 1 2 3 4 5 6
  printf 'ok 1\n%.0s' $(seq 150)
  printf 'ok 150\nok 150\nok 1\nok 1\nok 1\nok 2\nok 1\n'
  printf -- '-- history\n1 definition of A\n2 definition of B\n3 ticket 1\n'
  seq -f "  insert A %.0f|'a'" 1 150
  for ((k = 1; k <= 150; k++)); do printf "  update A %s|'a' to %s|'%s'\n" $k $k "$long_text"; done
  for ((k = 1; k <= 150; k++)); do printf "  update A %s|'%s' to %s|'b'\n" $k "$long_text" $k; done
  printf "4 ticket 2\n  insert A 200|'c'\n-- tables\nA\n"
  seq -f "= %.0f|'b'" 1 150
  printf "= 200|'c'\nB\n-- slot 0\n"
  {
    printf '00020000000000000001'
    batch "$begun_group"
    batch "$begun_other"
    batch '08014701'
    printf '01%08x' "$lengths"
    printf %s "$committed"
  } | head -c 8192 | fold -w 64
  printf -- '\n-- slot 1\n'
  {
    printf '01020000000000000002'
    batch "04$(printf %016x 2)$begun_group${begun_other}0701520108014701"
    batch "01$(printf %016x%04x 2 1)01014102$(number 200)$(told_text c)"
    printf 00
  } | fold -w 64
  printf '\n'
} >a_long_journal_is_begun_anew.expected

# The longest line that is read, and one of a byte less, which lacks its end.
name=longest_lines
front="s1: INSERT INTO A VALUES (1$(printf ',1%.0s' $(seq 32754))"
printf '%s\n' "$front" "$front)" >"$name.ttc"
printf 'no 101 65535\nok 0\n' >"$name.expected"
echo check >"$name.words"

# A text has up to 4,000 bytes, and two quotes are one of them.
script texts_of_4000_bytes
inserts 1 1
line "s1: SELECT '$(many a 4000)' FROM A" "= '$(many a 4000)'"$'\nok 1'
line "s1: SELECT '$(many a 4001)' FROM A" 'no 105 -'
line "s1: SELECT '$(many a 3999)''' FROM A" "= '$(many a 3999)'''"$'\nok 1'
line "s1: SELECT '$(many a 4000)''' FROM A" 'no 105 -'

# Instances are found over the bank in memory as over a file: by the same lines.
rows='A 1|10,A 2|NULL,A 3|30,A 4|9223372036854775807,C 10|1,C 11|1,C 12|2,C 13|3,K 100|10,K 101|11,K 102|12,K 103|13,K 104|10'
three=$'-- history\n1 definition of A\n2 definition of C\n3 definition of K\n4 others\n'
three+=$(tr , '\n' <<<"$rows" | sed 's/^/  insert /')$'\n-- tables\n'
three+=$(tr , '\n' <<<"$rows" | awk '$1 != table { table = $1; print table } { print "= " $2 }')
drill three_tables_over_memory '! note Instances are found over the bank in memory as over a file.' \
  "$here/three_tables_on_demand.ttc" 0 "$(cat "$here/three_tables_on_demand.expected")"$'\n'"$three"

# A time in the journal is the seconds that `date -u` tells of it.
cat >times <<'END'
-62135596800 0001-01-01 00:00:00
-62104060801 0001-12-31 23:59:59
-62035848000 0004-02-29 12:00:00
-2203891201 1900-02-28 23:59:59
-1 1969-12-31 23:59:59
0 1970-01-01 00:00:00
951868799 2000-02-29 23:59:59
1709212455 2024-02-29 13:14:15
253402300799 9999-12-31 23:59:59
END
{
  printf '! note A time is kept as its seconds since 1970, and is printed as it was read.\n! slots\n'
  echo 'backing: CREATE TABLE E (ID TT_INTEGER, T TIMESTAMP, PRIMARY KEY (ID))'
  echo 's1: OPEN'
  echo 's1: CREATE ASYNCHRONOUS WRITETHROUGH CACHE GROUP G FROM E (ID TT_INTEGER, T TIMESTAMP, PRIMARY KEY (ID))'
  awk '{ printf "s1: INSERT INTO E VALUES (%d, TIMESTAMP '"'%s %s'"')\n", NR, $2, $3 }' times
  printf 's1: %s\n' 'SELECT T FROM E ORDER BY T DESC' COMMIT
} >times_are_kept_as_seconds.drill
kept() {
  printf '01%016x%04x' 1 9
  while read -r seconds _; do
    id=$((${id:-0} + 1))
    printf '01014502%s03%016x' "$(number $id)" "$seconds"
  done <times
}
{
  printf 'ok 0\nok 0\nok 0\n'
  printf 'ok 1\n%.0s' 1 2 3 4 5 6 7 8 9
  tac times | sed 's/[^ ]* /= /'
  printf 'ok 9\nok 1\n-- history\n1 definition of E\n-- tables\nE\n-- slot 0\n'
  {
    printf '01020000000000000001'
    batch "$(spelt 'CREATE ASYNCHRONOUS WRITETHROUGH CACHE GROUP G FROM E ( ID TT_INTEGER NOT NULL , T TIMESTAMP , PRIMARY KEY ( ID ) )')"
    batch "$(kept)"
    printf 00
  } | fold -w 64
  printf -- '\n-- slot 1\n00\n'
} >times_are_kept_as_seconds.expected

# The text of a definition in the journal: words in upper case, keys as clauses, defaults written out, and no parentheses but
# those that a condition needs.
cat >texts_of_groups.drill <<'END'
! note The text of a definition is its normal form.
! slots
backing: CREATE TABLE A (ID TT_INTEGER, N TT_INTEGER, PRIMARY KEY (ID))
backing: CREATE TABLE OWN.C (ID NUMBER(6,0), N VARCHAR2(20), PRIMARY KEY (ID))
backing: CREATE TABLE O (ID TT_INTEGER, CID NUMBER(6,0), PRIMARY KEY (ID), FOREIGN KEY (CID) REFERENCES OWN.C (ID) ON DELETE CASCADE)
backing: CREATE TABLE E (ID TT_INTEGER, T TIMESTAMP NOT NULL, NAME VARCHAR2(20), PRIMARY KEY (ID))
s1: OPEN
s1: create readonly cache group own.r from a (id tt_integer primary key, n tt_integer) where not (id = 1) and (n!=2 or (n<3 or n is not null));
s1: create dynamic asynchronous writethrough cache group w from own.c (id number(06) primary key, n varchar2(020 byte)), o (id tt_integer, cid number(6,0), primary key(id), foreign key(cid) references own . c(id) on delete cascade)
s1: CREATE READONLY CACHE GROUP S AUTOREFRESH MODE FULL INTERVAL 5 SECONDS STATE ON FROM E (ID TT_INTEGER, T TIMESTAMP(0) NOT NULL, NAME VARCHAR2(20), PRIMARY KEY (ID)) WHERE ((id+-007*1.50 not between - 5 and 1) or name not in ('it''s',null)) or t=timestamp'2020-01-01 00:00:00' AGING USE T LIFETIME 2 MINUTES OFF
END
{
  printf 'ok 0\n%.0s' 1 2 3 4 5 6 7 8
  printf -- '-- history\n'
  printf '%s definition of %s\n' 1 A 2 OWN.C 3 O 4 E
  printf '%s\n' '-- tables' A OWN.C O E '-- slot 0'
  {
    printf '01020000000000000001'
    batch "$(spelt 'CREATE READONLY CACHE GROUP OWN . R AUTOREFRESH MODE INCREMENTAL INTERVAL 300000 MILLISECONDS STATE PAUSED FROM A ( ID TT_INTEGER NOT NULL , N TT_INTEGER , PRIMARY KEY ( ID ) ) WHERE NOT ID = 1 AND ( N <> 2 OR ( N < 3 OR N IS NOT NULL ) )')"
    batch "$(spelt 'CREATE DYNAMIC ASYNCHRONOUS WRITETHROUGH CACHE GROUP W FROM OWN . C ( ID NUMBER ( 6 , 0 ) NOT NULL , N VARCHAR2 ( 20 ) , PRIMARY KEY ( ID ) ) AGING LRU ON , O ( ID TT_INTEGER NOT NULL , CID NUMBER ( 6 , 0 ) NOT NULL , PRIMARY KEY ( ID ) , FOREIGN KEY ( CID ) REFERENCES OWN . C ( ID ) ON DELETE CASCADE )')"
    batch "$(spelt "CREATE READONLY CACHE GROUP S AUTOREFRESH MODE FULL INTERVAL 5000 MILLISECONDS STATE ON FROM E ( ID TT_INTEGER NOT NULL , T TIMESTAMP NOT NULL , NAME VARCHAR2 ( 20 ) , PRIMARY KEY ( ID ) ) AGING USE T LIFETIME 120 SECONDS CYCLE 300 SECONDS OFF WHERE ID + -007 * 1.50 NOT BETWEEN -5 AND 1 OR NAME NOT IN ( 'it''s' , NULL ) OR T = TIMESTAMP '2020-01-01 00:00:00'")"
    printf 00
  } | fold -w 64
  printf -- '\n-- slot 1\n00\n'
} >texts_of_groups.expected
