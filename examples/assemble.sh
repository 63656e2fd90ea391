#!/usr/bin/env bash
# Hands each stored assembly of the examples to GNU `as`, where one for RISC-V is at hand; AS names another. It writes nothing.
set -eu
here=$(cd "$(dirname "${BASH_SOURCE[0]}")" && pwd)

assembler=${AS-}
for name in riscv64-linux-gnu-as riscv64-unknown-linux-gnu-as riscv64-unknown-elf-as riscv64-elf-as; do
  [ -n "$assembler" ] || assembler=$(command -v "$name" || true)
done
if [ -z "$assembler" ]; then
  echo "assemble: no GNU as for RISC-V is at hand; AS=PROGRAM names one" >&2
  exit 0
fi

status=0
for text in "$here"/*.s; do
  if "$assembler" -march=rv64im -mabi=lp64 -o /dev/null "$text"; then
    echo "$(basename "$text"): assembled"
  else
    echo "$(basename "$text"): refused" >&2
    status=1
  fi
done
exit "$status"
