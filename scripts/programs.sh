# What the scripts share: which sources a program is made of, where its builds are kept, and how it is started.
# Whoever reads this file has set `top`, the folder of the checkout.
#
# A build is kept under the check sum of what it was made of, so one that was made of other sources is never started:
#   out/NAME-proved-SUM    proved and built by ./build
#   out/NAME-checked-SUM   the toolchain's checked build, of which nothing is proved
#   out/NAME-refusing-SUM  the same, which refuses one allocation (scripts/refused-growths)

# The status of a script that couldn't start the program; the programs have none of 100 or more.
cannot_start=125

say() {
  printf '%s\n' "$*" >&2
}

fail() {
  say "$@"
  exit "$cannot_start"
}

# The crates of crates.txt.
crates() {
  sed 's/#.*//; s/[ :].*//; /^$/d' "$top/crates.txt"
}

# Those of them that are programs.
programs() {
  for crate in $(crates); do
    [ ! -f "$top/crates/$crate/src/main.rt" ] || echo "$crate"
  done
}

# The scripts that have tests.
tested_scripts() {
  for file in "$top"/scripts/tests/*.py; do
    [ ! -f "$file" ] || basename "$file" .py
  done
}

# crates_of NAME: the crate and those below it, lowest first.
crates_of() {
  awk -v top="$1" '
    { sub(/#.*/, "") }
    /[a-z]/ { name = $0; sub(/[ :].*/, "", name); uses[name] = $0; sub(/[^:]*:?/, "", uses[name]) }
    function visit(name,   parts, count, i) {
      if (!(name in uses) || name in seen) return
      seen[name] = 1
      count = split(uses[name], parts, /[ ,\t]+/)
      for (i = 1; i <= count; i++) visit(parts[i])
      print name
    }
    END { visit(top) }' "$top/crates.txt"
}

# kept NAME proved|checked|refusing: where that build of today's sources is kept. Proofs are no part of a checked build.
kept() {
  case $2 in
    proved) parts='src specs proofs' ;;
    checked | refusing) parts='src' ;;
  esac
  sum=$(
    cd "$top" && {
      echo crates.txt
      for crate in $(crates_of "$1"); do
        for part in $parts; do
          [ ! -d "crates/$crate/$part" ] || find "crates/$crate/$part" -type f
        done
      done
    } | LC_ALL=C sort | tr '\n' '\0' | xargs -0 sha256sum | sha256sum
  ) || return
  printf '%s\n' "$top/out/$1-$2-${sum%% *}"
}

# keep FILE PLACE: puts a program where it is kept, in place of those of the same kind that other sources made.
keep() {
  mkdir -p "$top/out" && cp "$1" "$2.$$" && chmod 755 "$2.$$" || return
  rm -f "${2%-*}"-????????????????????????????????????????????????????????????????
  mv "$2.$$" "$2"
}

# is_made NAME: whether a build of today's sources is kept.
is_made() {
  [ -x "$(kept "$1" proved)" ] || [ -x "$(kept "$1" checked)" ]
}

can_keep() {
  if [ -d "$top/out" ]; then [ -w "$top/out" ]; else [ -w "$top" ]; fi
}

processors() {
  nproc 2>/dev/null || echo 2
}

needs_rt() {
  command -v rt >/dev/null || fail "$1: the toolchain's command rt isn't on the PATH"
}

# A checked run needs more of the stack than the proved program, and leaves no core where it stops at a fault.
room_to_run() {
  ulimit -s 1000000 2>/dev/null || ulimit -s "$(ulimit -H -s)" 2>/dev/null
  ulimit -c 0
}

# make_checked NAME WORDS FOLDER [FLAGS]: has the toolchain make the checked build, which is then FOLDER/made.
# Its command makes it in order to run it, and removes it at the end. So it is run on a pipe in place of a file,
# which the program waits at until it has been copied. WORDS are those that the program takes before a file, and
# FLAGS those of the command.
make_checked() {
  mkfifo "$3/pipe" || return
  # shellcheck disable=SC2086
  (cd "$top/crates/$1" && TMPDIR=$3 exec rt try ${4:-} -- $2 "$3/pipe" </dev/null >"$3/log" 2>&1) &
  begun=$!
  (exec 3>"$3/pipe" && find "$3" -name program -type f -exec cp {} "$3/made" \;) &
  begun="$begun $!"
  wait "${begun% *}"
  # (a program that never came to the pipe has left the copying waiting there)
  : <>"$3/pipe"
  wait
  begun=''
  [ -f "$3/made" ] || {
    tail -n 30 "$3/log" >&2
    say "$1: no checked build came of these sources"
    return "$cannot_start"
  }
}

# clear: ends what make_checked has begun, and removes its folder.
clear() {
  # shellcheck disable=SC2086
  [ -z "$begun" ] || kill $begun 2>/dev/null
  wait
  rm -rf "$work"
}

# start NAME WORDS ARGUMENT..: runs the program with the arguments, as make_checked says what WORDS are.
start() {
  name=$1 words=$2
  shift 2
  program=$(kept "$name" proved) || fail "$name: the sources in $top can't be read"
  [ ! -x "$program" ] || exec "$program" "$@"
  program=$(kept "$name" checked)
  what="$(basename -- "$0"): unproved: a checked run of the same sources, until $top/build has proved them"
  room_to_run
  if [ -x "$program" ]; then
    say "$what"
    exec "$program" "$@"
  fi
  needs_rt "$name"
  if can_keep; then
    say "$what; the first takes about a minute"
  else
    say "$what; it takes about a minute each time, since $top can't be written"
  fi
  begun=''
  work=$(mktemp -d) || fail "$name: no temporary folder"
  trap clear EXIT
  trap 'exit 130' INT
  trap 'exit 143' TERM
  make_checked "$name" "$words" "$work" || exit
  # (sources that were changed meanwhile may be in it)
  if can_keep && [ "$program" = "$(kept "$name" checked)" ] && keep "$work/made" "$program"; then
    rm -rf "$work"
    exec "$program" "$@"
  fi
  "$work/made" "$@"
  exit
}
