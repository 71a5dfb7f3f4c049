# Runs a program of this repository. bin/ascii_show and bin/ascii_filter read this file. They set `name`, the program, and
# `parts`, the crates that it is made from; their function `help` prints the help, and `is_mistyped` says of the words of a
# call that it cannot be one.
# A build counts if it was made from these sources with this toolchain. If there is none, the call is answered by the
# unproved program, which is kept under a name that says what it was made from (try_program.py).
set -eu
(exec 3>&2) || exec 2>/dev/null
here=$(cd "$(dirname "$(readlink -f "$0")")/.." && pwd)
crate=$here/crates/$name
program=$crate/out/$name
mark=$crate/out/$name.made_from

say() { printf 'bin/%s: %s\n' "$name" "$1" >&2; }

# What the program is made from: the toolchain, what the program may do, and each source, by their contents.
made_from() {
  cd "$here"
  {
    cat "$(dirname "$(dirname "$(readlink -f "$rt")")")/KIT-ID"
    for part in $parts; do find "crates/$part" -name out -prune -o \( -name '*.rt' -o -name '*.antt' \) -print; done |
      LC_ALL=C sort | xargs sha256sum crates.txt HANDLES
  } | sha256sum
}

is_built() { [ -x "$program" ] && [ "$(cat "$mark" 2>/dev/null)" = "$1" ]; }

# Proves and builds, in a process group of its own. The mark is that of the sources before the build, so an edit during
# the build is noticed; it is written last, so a build that was stopped does not count.
build() {
  say "proving and building the program, once; this takes some 10 to 35 CPU minutes"
  rm -rf "$mark" "$crate"/out/made.??????
  scratch=$(mktemp -d "$crate/out/made.XXXXXX")
  CRATE=$crate SCRATCH=$scratch setsid sh -c '
    cd "$CRATE"
    { got=0; PYTHONUNBUFFERED=1 rt run ${JOBS:+--jobs "$JOBS"} -- copy </dev/null || got=$?; echo "$got" >"$SCRATCH/status"; } 2>&1 |
      tee "$SCRATCH/log" | grep --line-buffered "^so far" >&2' &
  group=$!
  wait "$group" || true
  group=
  if [ "$(cat "$scratch/status" 2>/dev/null)" != 0 ]; then
    cat "$scratch/log" >&2
    say "the program was not proved or built"
    stop 70
  fi
  printf '%s\n' "$1" >"$scratch/mark"
  mv "$scratch/mark" "$mark"
  rm -rf "$crate/out/unproved"
}

# Builds if there is no build, after any other build of this checkout has ended.
build_once() {
  mkdir -p "$crate/out" 2>/dev/null && : 2>/dev/null >>"$crate/out/made.lock" ||
    { say "the program has to be built, and $crate/out cannot be written"; exit 73; }
  exec 9>"$crate/out/made.lock"
  flock 9
  is_built "$1" || build "$1" 9>&-
}

# Ends with a status, after what still runs was stopped and nothing was left. Another signal does not stop it: what is left
# beside a build that counts is removed by no later call.
stop() {
  trap '' HUP INT QUIT TERM
  # (a process that has just been started has no group of its own yet)
  [ -z "$group" ] || kill -TERM "-$group" 2>/dev/null || kill -TERM "$group" 2>/dev/null || true
  [ -z "$scratch" ] || rm -rf "$scratch"
  exit "$1"
}

case $# in 1)
  case $1 in
    --help) help; exit 0 ;;
    --version) echo "$name $(cat "$here/VERSION")"; exit 0 ;;
  esac ;;
esac
rt=$(command -v rt) || { say "the toolchain's command rt is not on PATH"; exit 69; }
sources=$(made_from)
group="" scratch=""
if [ "$*" != --build ]; then
  is_built "$sources" && exec "$program" "$@"
  ! is_mistyped "$@" || { say "this is no call of $name: see bin/$name --help"; exit 2; }
  say "this is the unproved program; bin/$name --build proves and builds it, once"
  unproved=$crate/out/unproved/${sources%% *}
  [ ! -x "$unproved" ] || exec "$unproved" "$@"
  exec python3 -B "$here/bin/lib/try_program.py" "$unproved" "$name" "$@"
fi
trap 'stop 129' HUP
trap 'stop 130' INT
trap 'stop 131' QUIT
trap 'stop 143' TERM
build_once "$sources"
stop 0
