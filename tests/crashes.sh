#!/usr/bin/env bash
# Writes drills that crash at each moment of a short run, with each of four picks of what is left, and drills in which a call of
# the journal's disk fails, into the folder that is named, each with what it gives. That follows from this rule alone:
#
# A moment is a write, cut or sync of the journal's disk, or an entry that comes to the backing database. A new journal takes
# six moments. A record takes four: its batch is written and synced, then its gate is written and synced. It is there behind
# a crash from the last of these on; between the last two exactly where what is left of the gate is 01; else it isn't there.
# An entry is there from its moment on. A line is answered once all its moments have passed.
#
# A call of the disk that fails, be it before its effect or behind it, ends the run with the line that it came in, whose reply is
# `fault 202`. The record is there in the next run exactly where its gate was written.
set -eu
cd "$1"

# Whether a gate that is written and not synced is left open by a pick. A number begins a generator, whose first byte is left.
leaves_open() {
  case $1 in
    old | ones) return 1 ;;
    new) return 0 ;;
    *) [ $((($1 * 6364136223846793005 + 1442695040888963407 >> 33 & 0x7fffffff) % 256)) -eq 1 ] ;;
  esac
}
picks=(old new ones 3)

# ---- a run, line by line

# A run begins: of a new journal, or of one that is there, of which both slots are synced.
begin() {
  lines=() replies=() ends=() facts=() at=()
  moment=$1
}
# A line and its reply, and then what it does, in order: `record NAME` or `entry NAME`.
line() {
  lines+=("$1") replies+=("$2")
  shift 2
  while [ $# -gt 0 ]; do
    case $1 in
      record) moment=$((moment + 4)) ;;
      entry) moment=$((moment + 1)) ;;
    esac
    facts+=("$1 $2") at+=("$moment")
    shift 2
  done
  ends+=("$moment")
}
# The input, and the replies before a moment.
input() { printf '%s\n' "${lines[@]}"; }
answered() {
  local i
  for i in "${!lines[@]}"; do
    [ "${ends[i]}" -gt "$1" ] || printf '%s\n' "${replies[i]}"
  done
}
# What is there behind a crash at this moment with this pick: names between blanks.
left() {
  local i
  there=' '
  for i in "${!facts[@]}"; do
    if [ "$1" -ge "${at[i]}" ] || { [ "${facts[i]% *}" = record ] && [ "$1" -eq $((at[i] - 1)) ] && leaves_open "$2"; }; then
      there+="${facts[i]#* } "
    fi
  done
}
is_there() { case $there in *" $1 "*) return 0 ;; *) return 1 ;; esac; }

# A drill for each moment from the second argument on, and each pick; behind the crash come two more runs. The function named
# third writes their lines, and the one named fourth what they give, and then history and tables, of what is left.
crashes() {
  local name=$1 from=$2 lines_of=$3 gives=$4 m pick
  for ((m = from; m <= moment; m++)); do
    for pick in "${picks[@]}"; do
      { printf '! crash %s %s\n' "$m" "$pick"; input; "$lines_of"; } >"${name}_${m}_$pick.drill"
      left "$m" "$pick"
      { answered "$m"; echo '<crash>'; "$gives"; } >"${name}_${m}_$pick.expected"
    done
  done
  # The run has no more moments, so this isn't understood.
  { printf '! crash %s old\n' $((moment + 1)); input; } >"${name}_past.drill"
  : >"${name}_past.expected"
  echo 99 >"${name}_past.status"
}
# A drill for each call that a record takes, of each record of the run, which fails before its effect or behind it; behind it come
# more runs, as above. A new journal took two writes and four syncs.
faults() {
  local name=$1 lines_of=$2 gives=$3 i j line record=0 call plan when file
  for i in "${!facts[@]}"; do
    [ "${facts[i]% *}" = record ] || continue
    record=$((record + 1))
    for line in "${!ends[@]}"; do [ "${ends[line]}" -lt "${at[i]}" ] || break; done
    for call in 1 2 3 4; do
      case $call in
        1) plan="write $((2 * record + 1))" ;;
        2) plan="sync $((2 * record + 3))" ;;
        3) plan="write $((2 * record + 2))" ;;
        4) plan="sync $((2 * record + 4))" ;;
      esac
      for when in before after; do
        file=${name}_fault_${record}_${call}_$when
        { printf '! fail %s %s\n' "$plan" "$when"; input; "$lines_of"; } >"$file.drill"
        there=' '
        for ((j = 0; j < i; j++)); do there+="${facts[j]#* } "; done
        case $call$when in 3after | 4*) there+="${facts[i]#* } " ;; esac
        { printf '%s\n' "${replies[@]:0:line}"; echo 'fault 202'; "$gives"; } >"$file.expected"
      done
    done
  done
}
again() { printf '%s\n' '! restart' 's1: OPEN' 's1: SELECT * FROM A'; }
twice() { again; again; }

# ---- what stands at the backing database

table='A (ID TT_INTEGER, N TT_INTEGER, PRIMARY KEY (ID))'
history() {
  local number=0 entry
  echo '-- history'
  for entry in "$@"; do
    number=$((number + 1))
    case $entry in
      table) echo "$number definition of A" ;;
      rows) printf '%s\n' "$number others" '  insert A 1|10' '  insert A 2|20' ;;
      *) printf '%s\n' "$number ticket ${entry%%:*}" "  insert A ${entry#*:}" ;;
    esac
  done
}
# The rows that a history leaves.
rows() {
  local entry
  for entry in "$@"; do
    case $entry in
      table) ;;
      rows) printf '%s\n' '= 1|10' '= 2|20' ;;
      *) echo "= ${entry#*:}" ;;
    esac
  done
}
# History and tables of these entries.
bank() {
  history "$@"
  echo '-- tables'
  case " $* " in *' table '*) echo A; rows "$@" ;; esac
}
# What a SELECT gives where the history is so: the group isn't there, isn't loaded, or shows all rows.
shown() {
  local all
  if ! is_there group; then echo 'no 102 A'; return; fi
  if ! is_there loaded; then echo 'ok 0'; return; fi
  all=$(rows "$@")
  [ -z "$all" ] || printf '%s\n' "$all"
  echo "ok $(printf '%s' "$all" | grep -c . || true)"
}
# The entries of table and rows that are there.
first_entries() {
  entries=()
  is_there table && entries+=(table)
  is_there rows && entries+=(rows)
  return 0
}
# A table with two rows at the backing database, a session and a loaded group.
loaded_group() {
  line "backing: CREATE TABLE $table" 'ok 0' entry table
  line 'backing: INSERT INTO A VALUES (1, 10); INSERT INTO A VALUES (2, 20)' 'ok 2' entry rows
  line "s1: OPEN$2" 'ok 0'
  line "s1: CREATE $1 WRITETHROUGH CACHE GROUP G FROM $table" 'ok 0' record group
  line 's1: LOAD CACHE GROUP G COMMIT EVERY 256 ROWS' 'ok 2' record loaded
}

# ---- asynchronous commits

# What two runs give: a ticket that is recorded comes once, with the first of them.
gives_commits() {
  local ticket
  first_entries
  for ticket in 1 2; do is_there "t$ticket" && entries+=("$ticket:$((ticket + 2))|$((ticket + 2))0"); done
  echo 'ok 0'; shown "${entries[@]}"
  echo 'ok 0'; shown "${entries[@]}"
  bank "${entries[@]}"
}

# A commit of a session that is durable, and its drain.
begin 6
loaded_group ASYNCHRONOUS ' DURABLE 1'
line 's1: INSERT INTO A VALUES (3, 30)' 'ok 1'
line 's1: COMMIT' 'ok 1' record t1
line 's1: SELECT * FROM A' $'= 1|10\n= 2|20\n= 3|30\nok 3'
line 's1: CALL ttDrain' 'ok 1' entry x1
crashes durable_commit 0 twice gives_commits
faults durable_commit twice gives_commits

# A commit that isn't durable, and its drain.
begin 6
loaded_group ASYNCHRONOUS ''
line 's1: INSERT INTO A VALUES (3, 30)' 'ok 1'
line 's1: COMMIT' 'ok 1'
line 's1: CALL ttDrain' 'ok 1' record t1 entry x1
crashes drained_commit 16 twice gives_commits
faults drained_commit twice gives_commits

# One whose record goes with the next durable one, both of which wait for a drain that isn't asked for.
begin 6
loaded_group ASYNCHRONOUS ''
line 's2: OPEN DURABLE 1' 'ok 0'
line 's1: INSERT INTO A VALUES (3, 30)' 'ok 1'
line 's2: INSERT INTO A VALUES (4, 40)' 'ok 1'
line 's1: COMMIT' 'ok 1'
# One batch has both records.
line 's2: COMMIT' 'ok 2' record both
gives_both() {
  if is_there both; then there+='t1 t2 '; fi
  gives_commits
}
crashes commits_of_one_batch 16 twice gives_both
faults commits_of_one_batch twice gives_both

# One that the end of the input flushes.
begin 6
loaded_group ASYNCHRONOUS ''
line 's1: INSERT INTO A VALUES (3, 30)' 'ok 1'
line 's1: COMMIT' 'ok 1'
facts+=('record t1') at+=($((moment + 4)))
moment=$((moment + 4))
crashes commit_at_the_end 16 twice gives_commits

# ---- synchronous commits

# A record alone leaves nothing of a commit, but its ticket isn't given again.
synchronous_lines() {
  again
  printf '%s\n' 's1: LOAD CACHE GROUP G' 's1: INSERT INTO A VALUES (5, 50)' 's1: COMMIT'
  again
}
gives_synchronous() {
  local next=1 added
  first_entries
  is_there x1 && entries+=('1:3|30')
  is_there t1 && next=2
  echo 'ok 0'; shown "${entries[@]}"
  if is_there group; then
    # LOAD adds the instances that aren't held.
    added=$(rows "${entries[@]}" | grep -c . || true)
    is_there loaded && added=0
    printf '%s\n' "ok $added" 'ok 1' "ok $next"
    entries+=("$next:5|50")
    there+='loaded '
  else
    printf '%s\n' 'no 112 G' 'no 102 A' 'ok 0'
  fi
  echo 'ok 0'; shown "${entries[@]}"
  bank "${entries[@]}"
}
begin 6
loaded_group SYNCHRONOUS ''
line 's1: INSERT INTO A VALUES (3, 30)' 'ok 1'
line 's1: COMMIT' 'ok 1' record t1 entry x1
crashes synchronous_commit 8 synchronous_lines gives_synchronous
faults synchronous_commit synchronous_lines gives_synchronous

# ---- definitions, states and flags

# A READONLY group that is loaded, turned off, unloaded and dropped. It shows all rows exactly where its flag is set.
read_only_shown() {
  if ! is_there group || is_there dropped; then echo 'no 102 A'; return; fi
  if ! is_there loaded || is_there unloaded; then echo 'ok 0'; return; fi
  printf '%s\n' '= 1|10' '= 2|20' 'ok 2'
}
# Its STATE is PAUSED at first, and LOAD makes it ON, with the same batch as the flag. REFRESH is refused where it isn't PAUSED.
read_only_lines() {
  again
  echo 's1: REFRESH CACHE GROUP G'
  again
}
gives_read_only() {
  first_entries
  echo 'ok 0'; read_only_shown
  if ! is_there group || is_there dropped; then echo 'no 112 G'
  elif is_there loaded; then echo 'no 115 G'
  else echo 'ok 2'; there+='loaded '; fi
  echo 'ok 0'; read_only_shown
  bank "${entries[@]}"
}
begin 6
line "backing: CREATE TABLE $table" 'ok 0' entry table
line 'backing: INSERT INTO A VALUES (1, 10); INSERT INTO A VALUES (2, 20)' 'ok 2' entry rows
line 's1: OPEN' 'ok 0'
line "s1: CREATE READONLY CACHE GROUP G AUTOREFRESH MODE FULL INTERVAL 5 SECONDS FROM $table" 'ok 0' record group
line 's1: LOAD CACHE GROUP G' 'ok 2' record loaded
line 's1: ALTER CACHE GROUP G SET AUTOREFRESH STATE OFF' 'ok 0' record off
line 's1: UNLOAD CACHE GROUP G' 'ok 2' record unloaded
line 's1: DROP CACHE GROUP G' 'ok 0' record dropped
crashes read_only_group 8 read_only_lines gives_read_only
faults read_only_group read_only_lines gives_read_only

# ---- crashes of a run that takes up what another one left

# Three commits are recorded, and the next run, which brings them to the backing database, crashes at each moment up to the one at
# which its lines are answered. Each commit comes once, in its order, and a run behind that finds nothing to do. Lines behind the
# second argument stand in front of that run.
openings() {
  local name last=$2 m pick run ticket
  for ((m = 0; m <= last; m++)); do
    for pick in "${picks[@]}"; do
      name=$1_${m}_$pick
      {
        printf '%s\n' "backing: CREATE TABLE $table" 's1: OPEN DURABLE 1' \
          "s1: CREATE ASYNCHRONOUS WRITETHROUGH CACHE GROUP G FROM $table" 's1: LOAD CACHE GROUP G'
        for ticket in 1 2 3; do printf '%s\n' "s1: INSERT INTO A VALUES ($ticket, 0)" 's1: COMMIT'; done
        printf '%s\n' '! restart' "${@:3}" "! crash $m $pick" 's1: OPEN' 's1: CALL ttDrain'
        twice
      } >"$name.drill"
      {
        printf 'ok %s\n' 0 0 0 0 1 1 1 2 1 3
        [ "$m" -lt "$last" ] || printf '%s\n' 'ok 0' 'ok 0'
        echo '<crash>'
        for run in 1 2; do printf '%s\n' 'ok 0' '= 1|0' '= 2|0' '= 3|0' 'ok 3'; done
        bank table '1:1|0' '2:2|0' '3:3|0'
      } >"$name.expected"
    done
  done
}
# It syncs both slots, and then an entry comes for each commit.
openings opening 5
# Of two live slots, where the other one is of an older generation and has no entry, it closes that one by a write and a sync first.
openings opening_of_two 7 '! slot 1 0102000000000000000000'

# ---- calls that fail in an opening

# A call of the disk fails in the opening of a new journal: no line of that run is answered, and the next one does them all.
begin 6
loaded_group ASYNCHRONOUS ' DURABLE 1'
line 's1: INSERT INTO A VALUES (3, 30)' 'ok 1'
line 's1: COMMIT' 'ok 1' record t1
line 's1: CALL ttDrain' 'ok 1' entry x1
for plan in 'write 1' 'write 2' 'sync 1' 'sync 2' 'sync 3' 'sync 4'; do
  for when in before after; do
    name=new_journal_${plan// /_}_$when
    { printf '! fail %s %s\n' "$plan" "$when"; input; echo '! restart'; input; } >"$name.drill"
    { echo 'fault 202'; printf '%s\n' "${replies[@]}"; bank table rows '1:3|30'; } >"$name.expected"
  done
done

# Three commits are recorded, and a call fails in the opening that finds them: of the disk, which syncs both slots first, or of
# the backing database, of which nothing is written. The run behind that has each of them once.
for plan in 'sync 15' 'sync 16' 'apply_once 1' 'apply_once 2' 'apply_once 3'; do
  for when in before after; do
    name=found_journal_${plan// /_}_$when
    {
      printf '! fail %s %s\n' "$plan" "$when"
      printf '%s\n' "backing: CREATE TABLE $table" 's1: OPEN DURABLE 1' \
        "s1: CREATE ASYNCHRONOUS WRITETHROUGH CACHE GROUP G FROM $table" 's1: LOAD CACHE GROUP G'
      for ticket in 1 2 3; do printf '%s\n' "s1: INSERT INTO A VALUES ($ticket, 0)" 's1: COMMIT'; done
      printf '%s\n' '! restart' 's1: OPEN' 's1: CALL ttDrain'
      twice
    } >"$name.drill"
    {
      printf 'ok %s\n' 0 0 0 0 1 1 1 2 1 3
      case $plan in sync*) echo 'fault 202' ;; esac
      for run in 1 2; do printf '%s\n' 'ok 0' '= 1|0' '= 2|0' '= 3|0' 'ok 3'; done
      bank table '1:1|0' '2:2|0' '3:3|0'
    } >"$name.expected"
  done
done
