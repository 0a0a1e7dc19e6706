#!/bin/sh
# Builds, proved, what C, people and the benches take:
#   tools/build.sh NAME..     these
#   tools/build.sh            every program, and every library that C links
# Of a library that C links, with its exports in crates/NAME_c: target/staticlib/libNAME.a. Of a program: target/bin/NAME.
# Wants the Rattle toolchain (rt; RT names another command). Only what is proved is built. `rt run`, which builds a program, runs it too: here once, on an empty input and with no
# arguments, and what it says and how it ends count for nothing. Exit status 0: all are built.
cd "$(dirname "$0")/.." || exit 1
rt=${RT:-rt}
if [ $# = 0 ]; then
  for crate in crates/*_c; do
    name=${crate#crates/}
    set -- "$@" "${name%_c}"
  done
  for main in crates/*/src/main.rt; do
    name=${main#crates/}
    set -- "$@" "${name%/src/main.rt}"
  done
fi
log=$(mktemp) || exit 1
trap 'rm -f "$log"' EXIT

# A build that failed: what rt said last.
failed() { # NAME WHAT
  tail -n 20 "$log" >&2
  echo "build.sh: $1 is not built ($2)" >&2
  exit 1
}

# The file is there, whole, at one moment.
put() { # FROM TO
  mkdir -p "$(dirname "$2")" && cp "$1" "$2.new" && mv "$2.new" "$2" && echo "$2"
}

for name in "$@"; do
  if [ -f "crates/${name}_c/src/lib.rt" ]; then
    (cd "crates/${name}_c" && "$rt" lib) > "$log" 2>&1 || failed "$name" "rt lib in crates/${name}_c"
    put "crates/${name}_c/out/lib${name}_c.a" "target/staticlib/lib$name.a" || exit 1
  elif [ -f "crates/$name/src/main.rt" ]; then
    # rt says that it runs the program only once it has built it; the status is then the program's own
    (cd "crates/$name" && "$rt" run) < /dev/null 2> "$log" > /dev/null
    grep -q "^rt: running out/$name;" "$log" || failed "$name" "rt run in crates/$name"
    put "crates/$name/out/$name" "target/bin/$name" || exit 1
  else
    echo "build.sh: $name is no program, and no library that C links: there is no crates/$name/src/main.rt and no crates/${name}_c" >&2
    exit 2
  fi
done
