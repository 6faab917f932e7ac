#!/bin/sh
# The static libraries for a processor that is not x86-64, for tests alone: make.sh FROM TO makes libsamopute_c.a and
# libsamopute_run.a in the folder TO, whose calls are made by the archives of the folder FROM in another process
# (client.c says how). Wants Debian's g++-x86-64-linux-gnu.
set -eu
from=$(realpath "$1")
mkdir -p "$2"
to=$(realpath "$2")
cd "$(dirname "$0")"
for side in client server; do
    awk -v "side=$side" -f calls.awk ../../include/samopute.h >"$to/${side}_calls.h"
done
flags="-std=c11 -O2 -Wall -Wextra -Werror -I../../include -I$to"
# shellcheck disable=SC2086
x86_64-linux-gnu-gcc $flags server.c "$from/libsamopute_run.a" "$from/libsamopute_c.a" -o "$to/server"
# shellcheck disable=SC2086
cc $flags -fPIC "-DRUN=\"$(realpath ../run.sh)\"" "-DPROGRAM=\"$to/server\"" -c client.c -o "$to/client.o"
rm -f "$to/libsamopute_c.a" "$to/libsamopute_run.a"
ar rcs "$to/libsamopute_c.a" "$to/client.o"
# The first has all calls. This one is there for those that link both.
ar rcs "$to/libsamopute_run.a"
