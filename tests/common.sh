# Read by the scripts beside it that call the built program: the program, a folder of their own, which goes when they end, and
# how a wrong answer is told.
program=$(realpath "$1") wrong=0
folder=$(mktemp -d)
trap 'rm -rf "$folder"' EXIT
complain() {
  printf '%s: %s\n' "$(basename "$0" .sh)" "$*"
  wrong=1
}
