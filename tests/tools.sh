# Sourced by tests that compile C or run what Rattle built. A missing tool is installed by its Debian package where that can be done.
# Rattle compiles for x86-64: on another machine Debian's cross compiler builds the C, and its emulator runs it.

# need COMMAND PACKAGE
need() {
  command -v "$1" >/dev/null && return
  if command -v apt-get >/dev/null; then
    local root=()
    [ "$(id -u)" -eq 0 ] || root=(sudo -n)
    "${root[@]}" apt-get update -qq >/dev/null 2>&1
    "${root[@]}" apt-get install -y --no-install-recommends "$2" >/dev/null 2>&1
  fi
  command -v "$1" >/dev/null && return
  echo "not run: there is no $1, and Debian's $2 cannot be installed"
  exit 77
}

# x86_run PROGRAM ARGUMENT..
x86_run() {
  if [ "$(uname -m)" = x86_64 ]; then
    "$@"
  else
    qemu-x86_64 -L /usr/x86_64-linux-gnu "$@"
  fi
}

# what x86_run needs
need_x86() {
  [ "$(uname -m)" = x86_64 ] && return
  need x86_64-linux-gnu-gcc gcc-x86-64-linux-gnu
  need qemu-x86_64 qemu-user
}

# built NAME: sets NAME to the executable of a program, as `rt ci` or `rt run` left it
built() {
  local path=crates/$1/out/$1
  [ -x "$path" ] || { echo "there is no $path: rt run in crates/$1"; exit 1; }
  printf -v "$1" %s "$path"
}

# program NAME: proves and builds a program, crates/NAME/out/NAME, and holds what it prints on its stored input to its stored output
program() {
  local out=crates/$1/out log
  log=$(mktemp)
  mkdir -p "$out"
  (cd "crates/$1" && rt run <stdin >out/stdout 2>"$log") || { cat "$log"; rm -f "$log"; echo "rt run failed in crates/$1"; exit 1; }
  rm -f "$log"
  cmp "$out/stdout" "crates/$1/stdout" || { echo "$1 does not print what its file stdout has"; exit 1; }
  echo "$1 is proved and built, and printed what its file stdout has: $out/$1"
}

# archive LOG: proves and builds target/staticlib/libfeohanna.a, for every x86-64 processor, with rt's lines in the file named
archive() {
  mkdir -p target/staticlib
  (cd crates/feohanna && rt lib --cpu x86-64) >"$1" 2>&1 || { cat "$1"; echo "rt lib failed in crates/feohanna"; exit 1; }
  cp crates/feohanna/out/libfeohanna.a target/staticlib/ || exit 1
}

# sets CC and CXX
need_compilers() {
  if [ "$(uname -m)" = x86_64 ]; then
    need gcc gcc
    need g++ g++
    CC=gcc CXX=g++
  else
    need_x86
    need x86_64-linux-gnu-g++ g++-x86-64-linux-gnu
    CC=x86_64-linux-gnu-gcc CXX=x86_64-linux-gnu-g++
  fi
}
