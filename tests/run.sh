#!/bin/sh
# Runs a program that was compiled for x86-64: run.sh PROGRAM ARGUMENTS.. There it is the program by itself. On another
# processor it goes under the emulator of the Rattle kit, by the kit's loader and C library, as rt runs programs; what
# else C++ wants is beside Debian's compiler for x86-64.
set -u
machine=$(uname -m)
[ "$machine" = x86_64 ] && exec "$@"
rt=$(readlink -f "$(command -v rt)")
tools=${RATTLE_HOME:-${rt%/bin/rt}}/on/$machine/toolchain
exec "$tools/bin/qemu-x86_64" "$tools/lib/ld-linux-x86-64.so.2" --library-path "$tools/lib:/usr/x86_64-linux-gnu/lib" "$@"
