#!/usr/bin/env bash
# Measures the program, and esbuild and babeljs where they are installed, on elements alone and on copies of realistic.jsx.
# Prints for each size: seconds (the least of a few runs), MB per second, and the peak of memory in bytes per source byte.
set -u
top=$(cd "$(dirname "${BASH_SOURCE[0]}")/.." && pwd)
work=$(mktemp -d)
trap 'rm -rf "$work"' EXIT
RUNS=${RUNS:-5}

# a text of at most $1 bytes, of elements alone
make_elements() {
    python3 - "$1" >"$2" <<'PY'
import sys
room = int(sys.argv[1])
parts = []
i = 0
while True:
    line = "const x%d = <%s />;\n" % (i, ("div", "Foo", "button", "ListItem")[i % 4])
    if room < len(line):
        break
    parts.append(line)
    room -= len(line)
    i += 1
sys.stdout.write("".join(parts))
PY
}

# a text of at most $1 bytes, of copies of realistic.jsx with other names in each
make_copies() {
    python3 - "$1" "$top/bench/realistic.jsx" >"$2" <<'PY'
import re, sys
room, text = int(sys.argv[1]), open(sys.argv[2], encoding="utf-8").read()
parts = re.split(r"(?<=[a-z])0\b", text)
i = 0
while True:
    copy = str(i).join(parts)
    if room < len(copy):
        break
    sys.stdout.write(copy)
    room -= len(copy)
    i += 1
PY
}

# name, file, command ..
measure() {
    local name=$1 file=$2
    shift 2
    local bytes best="" peak=0
    bytes=$(stat -c %s "$file")
    for _ in $(seq "$RUNS"); do
        /usr/bin/time -f '%e %M' -o "$work/time" "$@" <"$file" >"$work/out" 2>"$work/err" || { printf '%-10s %10s  failed\n' "$name" "$bytes"; return; }
        read -r seconds kilobytes <"$work/time"
        if [ -z "$best" ] || awk "BEGIN { exit !($seconds < $best) }"; then best=$seconds; fi
        [ "$kilobytes" -gt "$peak" ] && peak=$kilobytes
    done
    awk -v n="$name" -v b="$bytes" -v s="$best" -v k="$peak" 'BEGIN { printf "%-10s %10d bytes %8.3f s %9.1f MB/s %10.1f bytes of memory a byte\n", n, b, s, (s > 0 ? b / s / 1e6 : 0), k * 1024 / b }'
}

"$top/bin/jsxc" </dev/null || exit 1
# what Debian's babeljs finds its presets by
export NODE_PATH=${NODE_PATH:-/usr/share/nodejs}
for size in 1048576 16777216; do
    for kind in elements copies; do
        echo "$kind"
        "make_$kind" "$size" "$work/input.jsx"
        measure jsxc "$work/input.jsx" "$top/crates/jsxc/out/jsxc"
        command -v esbuild >/dev/null 2>&1 && measure esbuild "$work/input.jsx" esbuild --loader=jsx
        command -v babeljs >/dev/null 2>&1 && measure babeljs "$work/input.jsx" babeljs --presets @babel/preset-react --filename input.jsx
    done
done
exit 0
