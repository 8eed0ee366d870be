#!/usr/bin/env bash
# imports.sh PROGRAM: CSV files that `import` reads and that it refuses, over a table with a column of each type. Each row is a
# file and what the program answers to it, worked out by hand. It prints a line for each of its parts, and ends with 1 where a row
# isn't as it says.
set -u
. "$(dirname "$0")/common.sh"
cd "$folder" || exit 1

# Lets the program answer the input, by these words, and compares what it writes.
answers() {
  local wanted=$1 what=$2 got
  got=$("$program" "${@:3}") || complain "status $? of $what"
  [ "$got" = "$wanted" ] || complain "wanted '$wanted', got '$got' of $what"
}

# A table that has no rows.
begin() {
  rm -f ttcache.*
  answers 'ok 0' 'CREATE TABLE' run \
    <<<'backing: CREATE TABLE A (ID TT_INTEGER, N TT_BIGINT, T VARCHAR2(6), P NUMBER(4,1), D TIMESTAMP, PRIMARY KEY (ID))'
}

# A query of the table, and what it answers.
query() { answers $'ok 0\n'"$2" "$3" run <<<$'s1: OPEN PASSTHROUGH 1\ns1: '"$1"; }

# A file is imported into the empty table, which then has these rows. The reply tells how many there are.
imports() {
  local file=$1 ended="ok $(($# - 1))" rows=''
  shift
  [ $# -eq 0 ] || rows=$(printf '= %s\n' "$@")$'\n'
  begin
  answers "$ended" "the import of '$file'" import A < <(printf %s "$file")
  query 'SELECT * FROM A' "$rows$ended" "the rows of '$file'"
}

# A header alone is no transaction.
imports 'ID,N,T,P,D'
# A byte order mark, names in any case, and both ends of lines; a quote in a text; 1.25 has one digit in its column.
imports $'\xef\xbb\xbfid,n,t,p,d\r\n7,-5,a\'b,1.25,2026-01-31 23:59:59\r\n' "7|-5|'a''b'|1.3|2026-01-31 23:59:59"
# Lines without bytes are no records, and fields without bytes are NULL. A field in quotes has a comma, a tab and quotes.
imports $'\nId,N,T,P,D\n\n"8",,"x,\t""y",-0.05,\n\n009,"",\xc3\xa4,12,' \
  $'8|NULL|\'x,\t"y\'|-0.1|NULL' $'9|NULL|\'\xc3\xa4\'|12.0|NULL'
# The ends of what columns hold.
imports $'ID,N,T,P,D\n-2147483648,9223372036854775807,,999.94,0001-01-01 00:00:00\n' \
  '-2147483648|9223372036854775807|NULL|999.9|0001-01-01 00:00:00'
# Each record is a row, so two of one key break 107.
imports $'ID,N,T,P,D\n1,,,,\n2,,,,\n' '1|NULL|NULL|NULL|NULL' '2|NULL|NULL|NULL|NULL'
printf 'imports: each record becomes a row\n'

# A file is refused, and so is one of these records behind the header.
refused() { answers "$1" "the import of '$2'" import A < <(printf %s "$2"); }
behind_the_header() { refused "$1" $'ID,N,T,P,D\n'"$2"; }

begin
behind_the_header 'no 107 A 1' $'1,,,,\n1,,,,\n'
# No header, or another one.
refused 'no 101 0' ''
refused 'no 101 0' $'\n\r\n'
refused 'no 101 0' $'N,ID,T,P,D\n1,,,,\n'
refused 'no 101 0' $'ID,N,T,P\n'
refused 'no 101 0' $'ID,N,T,P,D,E\n'
refused 'no 101 0' $'ID,N,T,P,\xff\n'
# Another number of fields than columns, and bytes that aren't UTF-8.
behind_the_header 'no 101 1' $'1,,,\n'
behind_the_header 'no 101 2' $'1,,,,\n\n2,,,,,\n'
behind_the_header 'no 101 1' $'1,,\xff,,\n'
# No integers, and such as are too great.
behind_the_header 'no 105 ID' $'x,,,,\n'
behind_the_header 'no 105 ID' $'1.0,,,,\n'
behind_the_header 'no 105 ID' $'+1,,,,\n'
behind_the_header 'no 105 ID' $' 1,,,,\n'
behind_the_header 'no 105 ID' $'2147483648,,,,\n'
behind_the_header 'no 105 N' $'1,9223372036854775808,,,\n'
# A text that is too long, and texts with control characters.
behind_the_header 'no 105 T' $'1,,abcdefg,,\n'
behind_the_header 'no 105 T' $'1,,"a\nb",,\n'
behind_the_header 'no 105 T' $'1,,\x7f,,\n'
# No number, one that is rounded to 1000.0, a day that there isn't, and a day alone.
behind_the_header 'no 105 P' $'1,,,1.,\n'
behind_the_header 'no 105 P' $'1,,,999.95,\n'
behind_the_header 'no 105 D' $'1,,,,2026-02-30 00:00:00\n'
behind_the_header 'no 105 D' $'1,,,,2026-02-03\n'
# No key. A text that is too long comes before that, a field that doesn't read before a value that is out of its range, and the
# first record before the others.
behind_the_header 'no 106 ID' $',,,,\n'
behind_the_header 'no 105 T' $',,abcdefg,,\n'
behind_the_header 'no 105 N' $'2147483648,x,,,\n'
behind_the_header 'no 106 ID' $',,,,\n1,x,,,\n1,,,\n'
query 'SELECT * FROM A' 'ok 0' 'the rows behind refusals'
printf 'imports: other files are refused by the first record that is wrong, and change nothing\n'

# A transaction has 10,000 records: behind them even a wrong one is too many, but a wrong one before them is told first.
{
  printf 'ID,N,T,P,D\n'
  seq -f '%.0f,,,,' 1 10000
} >all
answers 'ok 10000' 'the import of 10,000 records' import A <all
query 'SELECT COUNT(*), MIN(ID), MAX(ID), COUNT(N) FROM A' $'= 10000|1|10000|0\nok 1' 'the rows of 10,000 records'
echo '1,,' >>all
answers 'no 119 ops' 'the import of 10,001 records' import A <all
sed '1a 1,x,,,' all >early
answers 'no 105 N' 'the import of 10,002 records' import A <early
printf 'imports: a transaction has 10,000 records\n'
exit "$wrong"
