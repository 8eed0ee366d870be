#!/usr/bin/env bash
# words.sh PROGRAM: the words and the settings that the program is called with. Which of them it takes, and which it refuses,
# with status 1 or 2; and of settings that it takes, what their values do. Each row is a call, its answer worked out by hand. It
# prints a line for each of its parts, and ends with 1 where a row isn't as it says.
set -u
. "$(dirname "$0")/common.sh"
cd "$folder" || exit 1

# The next call's working folder is empty, or has settings alone.
begin() {
  rm -rf here
  mkdir here
}
begin_with() {
  begin
  printf %s "$1" >here/ttcache.toml
}

# Calls the program by a name and with words, over the input.
call() { (cd here && exec -a "$1" "$program" "${@:2}") >written 2>told; }

# A call that ended with the first status was to end with the second, to write nothing, and to say this.
ended() {
  [ "$1" -eq "$2" ] && [ ! -s written ] && [ "$(cat told)" = "$3" ] ||
    complain "wanted status $2 and '$3', got $1 and '$(cat written told)' of $4"
}

# No settings and these words, the first of them the name that the program is called by, are refused.
refused() {
  begin
  call "$@" <<<'s1: COMMIT'
  ended $? 1 'usage: ttcache run | check | import TABLE | make N | bench N' "words '$*'"
}

# They are taken: the first line that the program writes is this one, or it writes so many.
taken() {
  local shown=$1 got
  shift
  begin
  call "$@" <<<'s1: COMMIT'
  got=$?
  [ "$got" -eq 0 ] || complain "status $got of words '$*'"
  [ "$(head -n 1 written)" = "$shown" ] || [ "$(wc -l <written) lines" = "$shown" ] ||
    complain "wanted '$shown', got '$(head -n 1 written)' and $(wc -l <written) lines of words '$*'"
}

# `run` answers a COMMIT of no session by 123; `check` says that it is spelt right. The program may be called by any name.
taken 'no 123 s1' ttcache run
taken 'ok 0' ttcache check
taken 'no 123 s1' other run
taken 'ok 0' '' check
# No word, and other words.
refused ttcache
refused run
refused ttcache fly
refused ttcache Run
# A word too many.
refused ttcache run check
refused ttcache run x
# What asks for help, or for the version.
refused ttcache run --help
refused ttcache --help
refused ttcache -h
refused ttcache help
refused ttcache -V
# Two hyphens end the words that may be a command's.
refused ttcache --
refused ttcache -- run
# `import` takes any text, but where it begins with a hyphen only behind two hyphens. There is no table; a text that is no name is
# told as a hyphen.
taken 'no 102 A' ttcache import A
taken 'no 102 -' ttcache import ''
taken 'no 102 -' ttcache import -- -x
refused ttcache import
refused ttcache import -x
refused ttcache import A B
# `make` and `bench` take a number from 0 to 1,000,000. A script has 8 lines beside the drawn ones.
taken '8 lines' ttcache make 0
taken 'requests 1000008' ttcache bench 1000000
taken '13 lines' ttcache make +5
taken 'requests 13' ttcache bench 005
refused ttcache make
refused ttcache make -1
refused ttcache make 1000001
refused ttcache bench x
refused ttcache bench 5 6
printf 'words: those of a command are taken, and others refused\n'

# These settings are refused.
bad() {
  begin_with "$1"
  call ttcache check <<<'s1: COMMIT'
  ended $? 2 'ttcache: ttcache.toml has an unknown key, a wrong type or a value out of range' "settings '$1'"
}

# No TOML table: a key without a value, without its value, twice, and bytes that aren't UTF-8.
bad 'workers'
bad 'workers = '
bad $'workers = 1\nworkers = 1\n'
bad $'\xff'
bad $'# \xc3\n'
# Unknown keys, and keys in tables.
bad 'worker = 1'
bad 'WORKERS = 1'
bad '[workers]'
bad '[table]'
bad 'lru.high = 1'
# Values out of their ranges or of another type, key by key.
bad 'workers = 0'
bad 'workers = 17'
bad 'workers = -1'
bad 'workers = 1.0'
bad "workers = '1'"
bad 'workers = [1]'
bad 'propagate_ms = 86400001'
bad "clock = 'Script'"
bad "clock = ''"
bad 'clock = 1'
bad 'start_ms = -1'
bad 'start_ms = 253402300799001'
bad 'lru_high = 0'
bad 'lru_high = 1000001'
bad 'lru_low = 10001'
bad $'lru_high = 10\nlru_low = 11\n'
bad 'lru_cycle_ms = 999'
bad 'lru_cycle_ms = 86400001'
bad $'rotate_bytes = 1048575\n'
bad 'rotate_bytes = 1073741825'
printf 'words: settings that are none are refused\n'

# Lets the program run over the input with these settings, and compares the last lines that it writes.
runs() {
  local settings=$1 wanted=$2 got
  begin_with "$settings"
  call ttcache run
  got=$?
  [ "$got" -eq 0 ] || complain "status $got of settings '$settings'"
  got=$(tail -n "$(wc -l <<<"$wanted")" written)
  [ "$got" = "$wanted" ] || complain "wanted '$wanted', got '$got' of settings '$settings' and ${*:3}"
}

# Each least value, and each greatest one, in the ways in which TOML writes integers and texts.
least=$'workers = 1\npropagate_ms = 0\nclock = \'script\'\nstart_ms = 0
lru_high = 1\nlru_low = 0\nlru_cycle_ms = 1000\nrotate_bytes = 1_048_576\n'
greatest=$'workers = 0x10\npropagate_ms = 86400000\nclock = "system"
start_ms = 253402300799000\nlru_high = 1000000\nlru_low = 1000000\nlru_cycle_ms = 86400000
rotate_bytes = 1073741824\n'

# They are taken. Nothing shows how many workers there are.
for settings in '' $'# none\n\n' "$least" "$greatest" 'workers = +2' 'lru_high = 20000' 'lru_high = 8999' 'lru_low = 10000'; do
  begin_with "$settings"
  call ttcache check <<<'s1: COMMIT' || complain "status $? of settings '$settings'"
done

# The first moment is so many milliseconds before the end of the year 9999, which the clock can't pass.
before_the_end() { runs "$1" $'ok '"$2"$'\nno 119 clock' "a clock of $2" <<<"clock: +$2"$'\nclock: +1'; }
end=253402300799000
before_the_end '' $end
before_the_end $'# none\n\n' $end
before_the_end "$least" $end
before_the_end 'start_ms = 253402300799000' 0
# With the system's clock it is no earlier than now, and no later than in a minute.
left=$((end - $(date +%s) * 1000))
runs "$greatest" 'no 119 clock' 'a clock past the end' <<<"clock: +$((left + 1))"
runs "$greatest" "ok $((left - 60000))" 'a clock a minute before the end' <<<"clock: +$((left - 60000))"
printf 'words: moments are counted from where the settings say\n'

# Behind a commit and so many milliseconds a drain has so many transactions to settle: 0 where a round came.
unsettled() {
  runs "$1" "ok $3" "a drain behind $2 ms" <<END
backing: CREATE TABLE A (ID TT_INTEGER PRIMARY KEY)
s1: OPEN
s1: CREATE ASYNCHRONOUS WRITETHROUGH CACHE GROUP GA FROM A (ID TT_INTEGER PRIMARY KEY)
s1: INSERT INTO A VALUES (1)
s1: COMMIT
clock: +$2
s1: CALL ttDrain
END
}
unsettled '' $end 1
unsettled "$least" $end 1
unsettled 'propagate_ms = 86400000' 86399999 1
unsettled 'propagate_ms = 86400000' 86400000 0
unsettled "$greatest" 86400000 0
printf 'words: a round comes when the settings say\n'

# Of so many instances, so many are left behind so many milliseconds.
leaves() {
  runs "$1" $'= '"$4"$'\nok 1' "$2 instances behind $3 ms" < <(
    echo 'backing: CREATE TABLE A (ID TT_INTEGER PRIMARY KEY)'
    echo 's1: OPEN'
    echo 's1: CREATE ASYNCHRONOUS WRITETHROUGH CACHE GROUP GA FROM A (ID TT_INTEGER PRIMARY KEY) AGING LRU'
    seq -f 's1: INSERT INTO A VALUES (%.0f)' 1 "$2" | sed '0~10000a s1: COMMIT'
    printf '%s\n' 's1: COMMIT' 's1: CALL ttDrain' "clock: +$3" 's1: SELECT COUNT(*) FROM A'
  )
}
# More than 10,000 leave down to 9,000, each minute.
leaves '' 10000 60000 10000
leaves '' 10001 59999 10001
leaves '' 10001 60000 9000
leaves "$least" 1 1000 1
leaves "$least" 2 999 2
leaves "$least" 2 1000 0
leaves "$greatest" 20001 86400000 20001
leaves $'lru_high = 1\nlru_low = 0\nlru_cycle_ms = 86400000' 2 86399999 2
leaves $'lru_high = 1\nlru_low = 0\nlru_cycle_ms = 86400000' 2 86400000 0
leaves 'lru_high = 20000' 20000 60000 20000
leaves 'lru_high = 20000' 20001 60000 9000
# By default the low mark is no greater than the high one.
leaves 'lru_high = 8999' 8999 60000 8999
leaves 'lru_high = 8999' 9000 60000 8999
leaves 'lru_low = 10000' 10001 60000 10000
printf 'words: instances leave as the settings say\n'

# Behind a drain of so many rows, each of 4,016 bytes in the journal, its second slot is live (1), which is where it was begun
# anew, or was never used (0). All else in the journal is less than 400 bytes.
long_text=$(head -c 4000 /dev/zero | tr '\0' x)
begins_anew() {
  local got
  runs "$1" 'ok 0' "$2 rows of 4,016 bytes" < <(
    echo 'backing: CREATE TABLE A (ID TT_INTEGER, V VARCHAR2(4000), PRIMARY KEY (ID))'
    echo 's1: OPEN DURABLE 1'
    echo 's1: CREATE ASYNCHRONOUS WRITETHROUGH CACHE GROUP GA FROM A (ID TT_INTEGER, V VARCHAR2(4000), PRIMARY KEY (ID))'
    seq -f "s1: INSERT INTO A VALUES (%.0f, '$long_text')" 1 "$2" | sed '0~1000a s1: COMMIT'
    printf 's1: %s\n' COMMIT 'CALL ttDrain' 'CALL ttDrain'
  )
  got=$(head -c 1 here/ttcache.j1 | od -An -tu1 | tr -d ' ')
  [ "$got" = "$3" ] || complain "the second slot begins with $got, not $3, of settings '$1' and $2 rows of 4,016 bytes"
}
# Longer than 16,777,216 bytes, and than 1,048,576.
begins_anew '' 4177 0
begins_anew '' 4178 1
begins_anew "$least" 261 0
begins_anew "$least" 262 1
begins_anew "$greatest" 4178 0
printf 'words: a journal is begun anew as the settings say\n'
exit "$wrong"
