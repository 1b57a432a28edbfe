# Read by the other scripts of this folder: the median of the processor seconds that a command takes.

# seconds ROUNDS ARCHIVE COMMAND..: the archive is the command's standard input
seconds() {
  local rounds=$1 archive=$2 TIMEFORMAT='%U %S'
  shift 2
  for _ in $(seq "$rounds"); do
    { time "$@" < "$archive" > /dev/null 2> /dev/null || true; } 2>&1 | awk 'END { printf "%.3f\n", $1 + $2 }'
  done | sort -n | sed -n "$(((rounds + 1) / 2))p"
}
