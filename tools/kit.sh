# What bin/, tests/boundary/run and bench/run share: the kit's command, and what it builds. It is sourced, not run, with `script` set to the
# name under which the script says why it stops. It sets `root`, the top of the checkout, `rt`, the kit's command, and `emulator`, the words
# before an x86-64 program that this machine needs to run it.
root=$(cd "$(dirname "${BASH_SOURCE[0]}")/.." && pwd)

# says what stands in the way, and ends with a status
stop() { # STATUS WORDS
  echo "$script: $2" >&2
  exit "$1"
}

rt=$(command -v rt || true)
if [ -z "$rt" ] && [ -x /opt/rattle/bin/rt ]; then
  rt=/opt/rattle/bin/rt
fi
if [ -z "$rt" ]; then
  stop 2 "the Rattle kit's command 'rt' was not found; install the kit, or put its bin folder on PATH"
fi

emulator=()
if [ "$(uname -m)" != x86_64 ]; then
  # the kit's own emulator, where it has one, else Debian's; where there is neither, the system itself may know how
  tools=${RATTLE_HOME:-$(dirname "$(dirname "$(readlink -f "$rt")")")}/on/$(uname -m)/toolchain
  if [ -x "$tools/bin/qemu-x86_64" ]; then
    emulator=("$tools/bin/qemu-x86_64" "$tools/lib/ld-linux-x86-64.so.2" --library-path "$tools/lib")
  elif command -v qemu-x86_64 >/dev/null; then
    emulator=(qemu-x86_64 -L /usr/x86_64-linux-gnu)
  fi
fi

# Proves the program of the crate NAME and builds it as crates/NAME/out/NAME, which is quick where nothing has changed.
build_program() { # NAME
  local log=target/$1.log
  mkdir -p "$root/target"
  # `rt run` proves, builds and runs: here on no input, and only that it came so far counts
  (cd "$root/crates/$1" && exec "$rt" run) </dev/null >"$root/$log" 2>&1 || true
  if ! grep -q "^rt: running out/$1\b" "$root/$log"; then
    tail -n 20 "$root/$log" >&2
    stop 2 "the program was not built; $log has the whole of it"
  fi
}

# Proves the exports of the crate NAME_c and makes the static library target/staticlib/libNAME.a of them.
build_library() { # NAME
  local log=target/$1_c.log
  mkdir -p "$root/target/staticlib"
  if ! (cd "$root/crates/$1_c" && exec "$rt" lib) </dev/null >"$root/$log" 2>&1; then
    tail -n 20 "$root/$log" >&2
    stop 2 "$1_c is not proved or not built; $log has the whole of it"
  fi
  cp "$root/crates/$1_c/out/lib$1_c.a" "$root/target/staticlib/lib$1.a"
}
