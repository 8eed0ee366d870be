#!/usr/bin/env bash
# chains.sh PROGRAM: lines of 65,536 bytes that are one chain of operators, or one list. Each is answered, also where the
# system gives the program a stack of a megabyte. It prints a line, and ends with 1 where a reply isn't as it says.
set -u
. "$(dirname "$0")/common.sh"
cd "$folder" || exit 1

# A line: its front, so many links with what joins them as have room, and its end.
chain() {
  local front=$1 link=$2 joint=$3 end=$4
  awk -v front="$front" -v link="$link" -v joint="$joint" -v end="$end" 'BEGIN {
    room = 65536 - length(front) - length(link) - length(end)
    printf "%s%s", front, link
    for (i = int(room / (length(joint) + length(link))); i > 0; i--) printf "%s%s", joint, link
    print end
  }'
}

# The lines that come before the chain of each run.
begin() {
  echo 'backing: CREATE TABLE A (ID TT_INTEGER, N TT_INTEGER, PRIMARY KEY (ID))'
  echo 'backing: INSERT INTO A VALUES (1, 0)'
  echo 's1: OPEN'
  echo 's1: CREATE ASYNCHRONOUS WRITETHROUGH CACHE GROUP G FROM A (ID TT_INTEGER, N TT_INTEGER, PRIMARY KEY (ID))'
  echo 's1: LOAD CACHE GROUP G COMMIT EVERY 256 ROWS'
}

# The reply to this line is this.
answered() {
  local wanted=$1 stack got
  shift
  for stack in 8192 1024; do
    rm -rf here
    mkdir here
    { begin; chain "$@"; } >lines
    (ulimit -s "$stack"; cd here && "$program" run) <lines >written 2>told
    got=$?
    [ "$got" -eq 0 ] && [ "$(tail -n +6 written)" = "$wanted" ] ||
      complain "with a stack of $stack: wanted '$wanted', got status $got and '$(tail -n +6 written | head -c 200)' of $1$2$3.."
  done
}

row=$'= 1|0\nok 1'
# Conditions, in a query, in changes and in a definition.
answered "$row" 's1: SELECT * FROM A WHERE ' '1=1' ' AND ' ''
answered 'ok 0' 's1: SELECT * FROM A WHERE ' '1=2' ' OR ' ''
answered 'ok 0' 's1: DELETE FROM A WHERE ' 'ID=3' ' OR ' ''
answered 'ok 1' 's1: UNLOAD CACHE GROUP G WHERE ' 'ID=1' ' OR ' ''
# Sums, whose value no column can hold, and products.
answered 'ok 0' 's1: SELECT * FROM A WHERE ID=' '1' '+' ''
answered 'ok 0' 's1: SELECT * FROM A WHERE ID=' '1' '-' ''
answered "$row" 's1: SELECT * FROM A WHERE ID=' '1' '*' ''
answered 'ok 1' 's1: INSERT INTO A VALUES (2,' '1' '*' ')'
answered 'ok 1' 's1: UPDATE A SET N=' 'N' '+' ' WHERE ID=1'
# Lists.
answered "$row" 's1: SELECT * FROM A WHERE ID IN (' '1' ',' ')'
answered "$row" 's1: SELECT * FROM A ORDER BY ' 'N' ',' ''
# The console's.
answered 'no 121 A' 'backing: DELETE FROM A WHERE ' 'ID=3' ' OR ' ''

[ "$wrong" -eq 0 ] && echo 'chains: a line of one chain is answered, whatever stack there is'
exit "$wrong"
