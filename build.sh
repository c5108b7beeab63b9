#!/bin/sh
# The build tool: it proves and builds the library and the window program, and compiles, links and runs C, with nothing but the kit.
# Only this file knows how the kit is laid out.
#
#   sh build.sh archive                prove the library and write build/libgorsepetal.a
#   sh build.sh ready                  the same, but only if that file is missing or older than the crates
#   sh build.sh window                 prove the window program and write build/window
#   sh build.sh window_ready           the same, but only if that file is missing or older than the crates
#   sh build.sh crates                 prove every crate, and keep what each check says in build/check/NAME.log
#   sh build.sh header                 compile the header alone, as C99 and as C++
#   sh build.sh alone                  link the archive with memcpy and memset alone: it must need no other symbol
#   sh build.sh object SOURCE NAME O3  compile SOURCE to build/NAME.o, at the level named (here -O3) and with the flags that follow
#   sh build.sh program SOURCE NAME..  compile SOURCE to build/NAME, linked with the archive and with the objects named after NAME
#   sh build.sh run NAME               run build/NAME with the words that follow; it reads the standard input of this call
#   sh build.sh words NAME             print the command by which run does so, a word a line, for a caller that runs it many times
#
# GORSEPETAL_ARCHIVE names an archive to use in place of build/libgorsepetal.a. The archive, the window program and the kit are for x86-64.
set -eu
cd "$(dirname "$0")"

fail() { echo "build.sh: $*" >&2; exit 2; }

command -v rt >/dev/null || fail "rt is not on the PATH: install the kit that README.md names"
kit=$(dirname "$(rt doc)")
bin=$kit/toolchain/bin
lib=$kit/toolchain/lib
[ -x "$bin/clang" ] || fail "the kit has no clang"
built=build/libgorsepetal.a
archive=${GORSEPETAL_ARCHIVE:-$built}
mkdir -p build/check

# The proved work of a crate stays in its out/, so what was proved before and has not changed is not proved again.
archive() {
  echo "proving crates/gorsepetal_c and what it stands on, and writing $built: some minutes from nothing" >&2
  (cd crates/gorsepetal_c && rt lib) >build/gorsepetal.log 2>&1 || { cat build/gorsepetal.log >&2; fail "crates/gorsepetal_c was not proved"; }
  cp crates/gorsepetal_c/out/libgorsepetal_c.a "$built"
}

# rt run also runs the program: on the crate's own input, of which it must print what is stored beside it.
window() {
  echo "proving crates/window and what it stands on, and writing build/window: some minutes from nothing" >&2
  (cd crates/window && rt run <stdin) >build/window.said 2>build/window.log || { cat build/window.log >&2; fail "crates/window was not proved, or did not end well"; }
  cmp build/window.said crates/window/stdout >&2 || fail "the window program printed something else than crates/window/stdout"
  cp crates/window/out/window build/window
}

# Every crate from crates.txt, those first that others stand on: rt all check proves as many side by side as there is room for. Then each
# says how it was proved and what it assumes.
crates() {
  rt all check >build/check.log 2>&1 || { cat build/check.log >&2; fail "not every crate is proved"; }
  rm -f build/check/*.log
  for name in $(sed -n 's/^\([a-z][a-z0-9_]*\)[ :].*/\1/p' crates.txt); do
    (cd "crates/$name" && rt check) >build/check/said 2>&1 || { cat build/check/said >&2; fail "crates/$name was not proved"; }
    mv build/check/said "build/check/$name.log"
  done
}

# Whether a file that is built from the crates is missing, or older than they are. What checks keep in out/ is no part of a crate.
stale() {
  [ ! -f "$1" ] || [ -n "$(find crates.txt crates -path 'crates/*/out' -prune -o \( -type f -o -path 'crates/*/*' \) -newer "$1" -print)" ]
}

window_ready() { if stale build/window; then window; fi; }

# An archive that the caller names is taken as it is.
ready() {
  [ -z "${GORSEPETAL_ARCHIVE:-}" ] || return 0
  if stale "$built"; then archive; fi
}

compile() { "$bin/clang" --target=x86_64-linux-gnu -Wall -Wextra -Wpedantic -Werror -isystem tests/include -Iinclude "$@"; }

header() {
  compile -x c -std=c99 -fsyntax-only include/gorsepetal.h
  compile -x c++ -std=c++11 -fsyntax-only include/gorsepetal.h
}

alone() {
  compile -std=c99 -O1 -ffreestanding -fno-builtin -c tests/c/alone.c -o build/alone.o
  "$bin/ld.lld" -static -z defs --entry=gorsepetal_propose -o build/alone build/alone.o --whole-archive "$archive"
}

object() {
  source=$1
  name=$2
  level=$3
  shift 3
  compile -std=c99 -fPIE "-$level" "$@" -c "$source" -o "build/$name.o"
}

# With -z now the C library's functions are found before main begins, not when one is first called.
program() {
  [ -f "$archive" ] || fail "$archive is not there: run sh build.sh archive"
  object "$1" "$2" O2
  shift
  name=$1
  for word; do
    shift
    set -- "$@" "build/$word.o"
  done
  "$bin/ld.lld" -pie -z now --dynamic-linker="$lib/ld-linux-x86-64.so.2" -rpath "$lib" -o "build/$name" \
    "$lib/Scrt1.o" "$lib/crti.o" "$lib/crtbeginS.o" "$@" "$archive" \
    "$lib/libc.so.6" "$lib/libc_nonshared.a" "$lib/libgcc.a" "$lib/crtendS.o" "$lib/crtn.o"
}

# The command has the kit's own loader and C library, so that nothing of the machine's is needed.
words() {
  name=$1
  shift
  printf '%s\n' "$lib/ld-linux-x86-64.so.2" --library-path "$lib" "$PWD/build/$name" "$@"
}

run() {
  lines=$(words "$@")
  set --
  while IFS= read -r word; do set -- "$@" "$word"; done <<END
$lines
END
  exec "$@"
}

case "${1:-}" in
  archive | ready | window | window_ready | crates | header | alone) [ $# -eq 1 ] || fail "$1 takes no further word" ;;
  object) [ $# -ge 4 ] || fail "object takes SOURCE, NAME and a level, and flags" ;;
  program) [ $# -ge 3 ] || fail "program takes SOURCE and NAME, and objects" ;;
  run | words) [ $# -ge 2 ] || fail "$1 takes NAME, and words for the program" ;;
  *) fail "one of archive, ready, window, window_ready, crates, header, alone, object, program, run, words is wanted" ;;
esac
"$@"
