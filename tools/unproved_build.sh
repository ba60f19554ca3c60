#!/usr/bin/env bash
# tools/unproved_build.sh PROGRAM [CRATE]: makes an optimised program without proof, to measure with: the LLVM module of `rt try`, compiled by the toolchain's clang.
# CRATE is smv_main, if it is not given, or smv_wave or smv_look. It takes some minutes. What it makes is not what is proved: the proved build is `rt run` in the crate.
set -u
top=$(cd "$(dirname "$0")/.." && pwd)
made=$(realpath -m "$1")
crate=${2:-smv_main}
case $crate in
  smv_main) words=(-- prove) text=$top/examples/toggle.smv least=6M ;;
  smv_look) words=(-- list) text=$top/examples/toggle.smv least=6M ;;
  *) words=() text=$top/crates/$crate/stdin least=600k ;;
esac
kept=$(mktemp -d)
export TMPDIR=$kept/try
mkdir -p "$TMPDIR"
cd "$top/crates/$crate" || exit 2
setsid rt try "${words[@]}" < "$text" > "$kept/log" 2>&1 &
try=$!
# The module is whole once its object is being made beside it.
while kill -0 "$try" 2> "$kept/ended"; do
  module=$(find "$TMPDIR" -name module.bc -size +"$least" | head -n 1)
  if [ -n "$module" ] && [ -n "$(find "$TMPDIR" -name '*.o.tmp')" ]; then
    sleep 2
    cp "$module" "$kept/program.bc"
    break
  fi
  sleep 0.3
done
children=$(ps -o pid= --ppid "$try")
# shellcheck disable=SC2086
kill "$try" $children 2> "$kept/ended"
cd "$kept" || exit 2
[ -f program.bc ] || { cat log; exit 1; }
/opt/rattle/toolchain/bin/clang -O2 -c program.bc -o program.o && gcc program.o /opt/rattle/c/libos_c.a /opt/rattle/c/liblibc_c.a -o "$made"
status=$?
rm -rf "$kept"
exit $status
