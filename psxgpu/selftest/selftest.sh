#!/bin/sh
# Plays the captures of this folder, and compares every byte of what comes of them with what is stored.
#
#     selftest.sh [PROGRAM]
#
# PROGRAM is psxgpu_tool; without it, that of the folder above, or of the path. The script prints one line: how many
# outputs are the same, the program's version, the system and the processor. Status: 0 all is the same, 1 something
# differs, 2 the program does not run.
here=$(cd "$(dirname "$0")" && pwd)
program=${1:-$here/../psxgpu_tool}
[ -x "$program" ] || [ "$1" ] || program=psxgpu_tool
version=$("$program" --version | head -n 1)
if [ -z "$version" ]; then
    echo "psxgpu selftest: $program does not run: name the program, as in selftest.sh ./psxgpu_tool" >&2
    exit 2
fi
out=$(mktemp) || exit 2
trap 'rm -f "$out"' EXIT
count=0
same=0
wrong=
for capture in "$here"/*.capture; do
    for command in sums play; do
        expected=${capture%.capture}.$command
        count=$((count + 1))
        if "$program" $command < "$capture" > "$out" && cmp -s "$out" "$expected"; then
            same=$((same + 1))
        else
            wrong="$wrong ${expected##*/}"
        fi
    done
done
processor=$(sed -n 's/^model name[^:]*: //p' /proc/cpuinfo 2> /dev/null | head -n 1)
processor=${processor:-$(sysctl -n machdep.cpu.brand_string 2> /dev/null)}
echo "psxgpu selftest: $same of $count outputs are the same${wrong:+ (different:$wrong)}:" \
    "$version, $(uname -srm), ${processor:-$(uname -m)}"
[ "$same" = "$count" ]
