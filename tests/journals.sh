#!/usr/bin/env bash
# Writes drills over journals that are made by hand, most of them malformed, into the folder that is named, each with what it
# gives: nothing and status 0, or the slot and the byte of the first place that is damaged and status 8, by docs/JOURNAL.md.
set -eu
cd "$1"

# ---- bytes, as hexadecimal digits

number() { printf '%0*x' $(($1 * 2)) "$2"; }
text() { printf '%s' "$1" | od -An -tx1 -v | tr -d ' \n'; }
length() { echo $((${#1} / 2)); }
name() { number 1 "${#1}"; text "$1"; }
value() { case $1 in NULL) echo 00 ;; *) echo "01$(number 8 "$1")" ;; esac; }
row() { number 1 $#; for v in "$@"; do value "$v"; done | tr -d '\n'; }
insert() { echo "01$(name "$1")$2"; }
update() { echo "02$(name "$1")$2$3"; }
delete() { echo "03$(name "$1")$2"; }
commit() { local ticket=$1; shift; echo "01$(number 8 "$ticket")$(number 2 $#)$(printf '%s' "$@")"; }
prepare() { local ticket=$1; shift; echo "02$(number 8 "$ticket")$(number 2 $#)$(printf '%s' "$@")"; }
passed() { echo "03$(number 8 "$1")"; }
mark() { echo "04$1"; }
definition() { echo "05$(number 4 "${#1}")$(text "$1")"; }
dropped() { echo "06$(name "$1")"; }
state() { echo "07$(name "$1")$2"; }
flag() { echo "08$(name "$1")$2"; }

# A live slot of this version and generation with these bodies, each behind an open gate, and then a closed one.
slot() {
  local version=$1 generation=$2 body
  shift 2
  printf '01%s%s' "$version" "$generation"
  for body in "$@"; do printf '01%s%s' "$(number 4 "$(length "$body")")" "$body"; done
  printf '00\n'
}
one=$(number 8 1)

# ---- drills

# What the line of a damaged place is, and nothing where there is none.
outcome() {
  if [ "$3" = whole ]; then
    printf '%s' "$2" >"$1.expected"
  else
    printf 'damaged %s\n%s' "$3" "$2" >"$1.expected"
    echo 8 >"$1.status"
  fi
}
# A journal over an empty backing database: its name, slot 0, and `whole` or the damaged place.
over_nothing() {
  printf '! slot 0 %s\n' "$2" >"$1.drill"
  outcome "$1" $'-- history\n-- tables\n' "$3"
}
# The same of both slots.
two_slots() {
  printf '! slot 0 %s\n! slot 1 %s\n' "$2" "$3" >"$1.drill"
  outcome "$1" $'-- history\n-- tables\n' "$4"
}
# A journal over two empty tables. Its first batch defines their groups, GA of asynchronous commits and GB of synchronous
# ones, and the entries come in the second one.
table() { echo "$1 ( ID TT_INTEGER NOT NULL , N TT_INTEGER , PRIMARY KEY ( ID ) )"; }
groups=$(definition "CREATE ASYNCHRONOUS WRITETHROUGH CACHE GROUP GA FROM $(table A)")
groups+=$(definition "CREATE SYNCHRONOUS WRITETHROUGH CACHE GROUP GB FROM $(table B)")
groups+=$(definition "CREATE READONLY CACHE GROUP GC AUTOREFRESH MODE FULL INTERVAL 5000 MILLISECONDS STATE PAUSED FROM $(table C)")
behind=$((15 + $(length "$groups") + 5))
over_tables() {
  local made=$'-- history\n' rows=$'-- tables\n' t place
  for t in A B C; do printf '! before CREATE TABLE %s\n' "$(table $t)"; done >"$1.drill"
  printf '! slot 0 %s\n' "$(slot 02 "$one" "$groups" "$2")" >>"$1.drill"
  made+=$'1 definition of A\n2 definition of B\n3 definition of C\n'
  place=$3
  # A number of bytes of the body stands before the damaged entry.
  [ "$place" = whole ] || place="0 $((behind + place))"
  outcome "$1" "$made${4:-}${rows}A"$'\n'"${5:-}B"$'\nC\n' "$place"
}

# ---- a slot with the number of a passed-on write

# A slot of version 1 that reads isn't opened yet: its version's byte is told.
as_yet='0 1'
whole=$(slot 01 "$one" "$(passed 1)")
for ((bytes = 1; bytes <= 25; bytes++)); do
  if [ $bytes -le 10 ]; then place='0 1'; elif [ $bytes -le 24 ]; then place='0 11'; else place=$as_yet; fi
  over_nothing "slot_of_$bytes" "${whole:0:bytes*2}" "$place"
done
over_nothing slot_of_version_7 '01 07 0000000000000001 00' '0 1'
over_nothing slot_of_version_0 '01 00 0000000000000001 00' '0 1'
new=$(slot 02 "$one" "$(passed 1)")
over_nothing slot_of_version_2 "$new" whole
over_nothing slot_of_ticket_0 "$(slot 01 "$one" "$(passed 0)")" '0 15'
over_nothing slot_of_a_ticket_too_great '01 01 0000000000000001 01 00000009 03 8000000000000000 00' '0 15'
over_nothing slot_of_the_last_ticket '01 02 0000000000000001 01 00000009 03 7fffffffffffffff 00' whole
over_nothing slot_of_the_last_generation "$(slot 01 ffffffffffffffff "$(passed 1)")" '0 2'
over_nothing slot_of_the_last_generation_in_version_2 "$(slot 02 ffffffffffffffff "$(passed 1)")" whole
over_nothing slot_of_a_length_too_great '01 01 0000000000000001 01 01000001 03 0000000000000001 00' '0 11'
over_nothing slot_of_a_length_past_the_end '01 01 0000000000000001 01 0000000a 03 0000000000000001 00' '0 11'
over_nothing slot_of_a_length_too_small '01 01 0000000000000001 01 00000008 03 0000000000000001 00' '0 15'
over_nothing slot_with_a_byte_behind '01 01 0000000000000001 01 0000000a 03 0000000000000001 7f 00' '0 24'
for gate in 00 ff; do
  over_nothing "slot_with_a_gate_of_${gate}_in_version_1" "01 01 0000000000000001 $gate 0000000a 03 0000000000000001 7f 00" "$as_yet"
  over_nothing "slot_with_a_gate_of_$gate" "01 02 0000000000000001 $gate 0000000a 03 0000000000000001 7f 00" whole
done
over_nothing slot_that_is_not_live 'ff 07 0000' whole
over_nothing slot_with_the_same_ticket_again "$(slot 01 "$one" "$(passed 1)" "$(passed 1)")" '0 29'
over_nothing slot_with_a_smaller_ticket "$(slot 01 "$one" "$(passed 2)$(passed 1)")" '0 24'
over_nothing slot_with_rising_tickets "$(slot 02 "$one" "$(passed 2)$(passed 7)" "$(passed 8)")" whole
over_nothing slot_with_a_damaged_batch_behind "$(slot 01 "$one" "$(passed 1)" "$(passed 2)ff")" '0 38'
over_nothing slot_of_a_mark "$(slot 02 "$one" "$(mark 8000000000000000)")" whole
over_nothing slot_of_a_mark_too_great "$(slot 02 "$one" "$(mark 8000000000000001)")" '0 15'
over_nothing slot_of_a_mark_behind "$(slot 02 "$one" "$(passed 1)$(mark "$one")")" '0 24'
over_nothing slot_of_a_mark_in_a_second_batch "$(slot 02 "$one" "$(passed 1)" "$(mark "$one")")" '0 29'
over_nothing slot_of_a_commit_of_no_group "$(slot 01 "$one" "$(commit 1 "$(insert A "$(row 3 30)")")")" '0 15'
over_nothing slot_of_no_operations "$(slot 02 "$one" "$(commit 1)")" '0 15'
over_nothing slot_of_a_text_that_is_no_group "$(slot 02 "$one" "$(definition COMMIT)")" '0 15'
over_nothing slot_of_a_group_of_no_table \
  "$(slot 02 "$one" "$(definition "CREATE ASYNCHRONOUS WRITETHROUGH CACHE GROUP GA FROM $(table A)")")" '0 15'
over_nothing slot_of_a_drop_of_no_group "$(slot 02 "$one" "$(dropped G)")" '0 15'

# ---- two slots: both heads are tested before a batch is, and then the slot that counts alone

damaged=$(slot 01 "$one" "$(passed 1)7f")
later=$(number 8 2)
two_slots two_slots_of_one_generation "$new" "$damaged" whole
two_slots two_slots_of_one_generation_damaged "$damaged" "$whole" '0 24'
two_slots two_slots_the_second_later "$damaged" "$(slot 02 "$later" "$(mark "$one")")" whole
two_slots two_slots_the_second_damaged "$whole" "$(slot 01 "$later" "$(passed 1)7f")" '1 24'
two_slots two_slots_the_first_later "$(slot 02 "$later" "$(passed 1)")" "$damaged" whole
two_slots two_slots_with_a_head_damaged "$whole" '01 07 0000000000000001 00' '1 1'
two_slots two_slots_with_both_heads_damaged '01 01 ffffffffffffffff 00' '01 07 0000000000000002 00' '0 2'
two_slots two_slots_with_a_head_before_a_batch "$damaged" '01 02' '1 1'
two_slots two_slots_with_the_second_alone '00' "$damaged" '1 24'
two_slots two_slots_without_a_first '' "$new" whole

# ---- entries that don't fit

over_tables entries_of_no_kind 09 0
over_tables entries_of_a_commit "$(commit 1 "$(insert A "$(row 3 30)")")" whole $'4 ticket 1\n  insert A 3|30\n' $'= 3|30\n'
over_tables entries_of_a_prepare_that_never_came "$(prepare 1 "$(insert B "$(row 3 30)")")" whole
over_tables entries_of_a_commit_in_a_synchronous_group "$(commit 1 "$(insert B "$(row 3 30)")")" 0
over_tables entries_of_a_commit_in_a_read_only_group "$(commit 1 "$(insert C "$(row 3 30)")")" 0
over_tables entries_of_a_prepare_in_an_asynchronous_group "$(prepare 1 "$(insert A "$(row 3 30)")")" 0
over_tables entries_of_no_table "$(commit 1 "$(insert X "$(row 3 30)")")" 0
over_tables entries_of_a_row_too_short "$(commit 1 "$(insert A "$(row 3)")")" 0
over_tables entries_of_a_row_too_long "$(commit 1 "$(insert A "$(row 3 30 300)")")" 0
over_tables entries_of_a_key_that_is_null "$(commit 1 "$(insert A "$(row NULL 30)")")" 0
over_tables entries_of_a_number_past_its_column "$(commit 1 "$(insert A "$(row 3 2147483648)")")" 0
over_tables entries_of_an_update_of_a_key "$(commit 1 "$(update A "$(row 3 30)" "$(row 4 30)")")" 0
over_tables entries_of_a_second_operation "$(commit 1 "$(insert A "$(row 3 30)")" "$(delete B "$(row 3 30)")")" 0
over_tables entries_behind_others "$(passed 1)$(commit 2 "$(insert B "$(row 3 30)")")" 9
over_tables entries_of_a_group_twice \
  "$(definition "CREATE ASYNCHRONOUS WRITETHROUGH CACHE GROUP GA FROM $(table A)")" 0
over_tables entries_of_a_table_that_has_its_group \
  "$(definition "CREATE ASYNCHRONOUS WRITETHROUGH CACHE GROUP GD FROM $(table A)")" 0
over_tables entries_of_a_group_that_is_dropped "$(dropped GA)$(commit 1 "$(insert A "$(row 3 30)")")" 4
over_tables entries_of_a_group_dropped_twice "$(dropped GA)$(dropped GA)" 4
over_tables entries_of_a_group_made_again \
  "$(dropped GA)$(definition "CREATE ASYNCHRONOUS WRITETHROUGH CACHE GROUP GD FROM $(table A)")" whole
over_tables entries_of_a_state "$(state GC 02)" whole
over_tables entries_of_a_state_that_is_none "$(state GC 03)" 0
over_tables entries_of_a_state_of_no_group "$(state GX 02)" 0
over_tables entries_of_a_state_of_a_writethrough_group "$(state GA 02)" 0
over_tables entries_of_a_flag "$(flag GA 01)$(flag GC 01)$(flag GC 00)" whole
over_tables entries_of_a_flag_that_is_none "$(flag GA 02)" 0
over_tables entries_of_a_flag_of_no_group "$(flag GX 01)" 0

# ---- values that don't read, or don't fit their columns

typed='A ( ID TT_INTEGER NOT NULL , X VARCHAR2 ( 3 ) , T TIMESTAMP , M NUMBER ( 6 , 2 ) , PRIMARY KEY ( ID ) )'
typed_group=$(definition "CREATE ASYNCHRONOUS WRITETHROUGH CACHE GROUP GA FROM $typed")
typed_behind=$((15 + $(length "$typed_group") + 5))
# A commit of a row with key 1 and these three values, in a second batch of a slot of this version.
over_types() {
  local entry
  entry=$(commit 1 "$(insert A "04$(value 1)$3")")
  printf '! before CREATE TABLE %s\n! slot 0 %s\n' "$typed" "$(slot "$2" "$one" "$typed_group" "$entry")" >"$1.drill"
  if [ "$4" = damaged ]; then
    outcome "$1" $'-- history\n1 definition of A\n-- tables\nA\n' "0 $typed_behind"
  elif [ "$4" = as_yet ]; then
    outcome "$1" $'-- history\n1 definition of A\n-- tables\nA\n' "$as_yet"
  else
    outcome "$1" $'-- history\n1 definition of A\n2 ticket 1\n  insert A '"$4"$'\n-- tables\nA\n= '"$4"$'\n' whole
  fi
}
text_of() { echo "02$(number 2 "$(length "$1")")$1"; }
time_of() { echo "03$1"; }
scaled() { echo "04$1$(number 8 "$2")"; }
letters=$(text_of "$(text abc)")
minute=$(time_of "$(number 8 60)")
price=$(scaled 02 1235)
over_types values_of_all_types 02 "$letters$minute$price" "1|'abc'|1970-01-01 00:01:00|12.35"
over_types values_of_null 02 000000 '1|NULL|NULL|NULL'
over_types values_of_version_1 01 "$letters${minute}00" as_yet
over_types values_with_a_scale_in_version_1 01 "$letters$minute$price" damaged
over_types values_with_an_empty_text 02 "020000$minute$price" damaged
over_types values_with_a_text_too_long 02 "$(text_of "$(text abcd)")$minute$price" damaged
over_types values_with_bytes_that_are_no_text 02 "$(text_of ff)$minute$price" damaged
over_types values_with_a_text_for_a_time 02 "$letters$letters$price" damaged
over_types values_with_a_number_for_a_text 02 "$(value 7)$minute$price" damaged
# The first second of the year 1 and the last one of the year 9999, and those before and behind.
over_types values_with_the_first_second 02 "$letters$(time_of fffffff1886e0900)$price" "1|'abc'|0001-01-01 00:00:00|12.35"
over_types values_before_the_first_second 02 "$letters$(time_of fffffff1886e08ff)$price" damaged
over_types values_with_the_last_second 02 "$letters$(time_of 0000003afff4417f)$price" "1|'abc'|9999-12-31 23:59:59|12.35"
over_types values_behind_the_last_second 02 "$letters$(time_of 0000003afff44180)$price" damaged
over_types values_with_scale_0 02 "$letters$minute$(scaled 00 1235)" damaged
over_types values_with_scale_19 02 "$letters$minute$(scaled 13 1235)" damaged
over_types values_with_another_scale 02 "$letters$minute$(scaled 03 1235)" damaged
over_types values_without_a_scale 02 "$letters$minute$(value 12)" damaged
over_types values_past_their_precision 02 "$letters$minute$(scaled 02 1000000)" damaged
over_types values_at_their_precision 02 "$letters$minute$(scaled 02 999999)" "1|'abc'|1970-01-01 00:01:00|9999.99"
over_types values_of_no_tag 02 "$letters${minute}05" damaged
