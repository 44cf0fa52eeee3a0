# Shared by the scripts: the program, the rows, and its output over the whole file. Source it with
# `.`; do not run it.
set -eu
here=$(cd "$(dirname "$0")" && pwd)
count=${ROWS:-100000}
scratch=$(mktemp -d /tmp/rowfn_engines.XXXXXX)
chmod 755 "$scratch"

# However the script ends, it stops what it started: a script that starts something defines `stop`.
stop() { :; }
finish() {
    status=$?
    trap - EXIT
    stop
    rm -rf "$scratch"
    exit "$status"
}
trap finish EXIT
trap 'exit 129' HUP
trap 'exit 130' INT
trap 'exit 143' TERM

# `rt run` in crates/rowfn_stream proves and builds the program, and leaves it there.
program=${ROWFN_STREAM:-$here/../../crates/rowfn_stream/out/rowfn_stream}
if [ ! -x "$program" ]; then
    echo "no program at $program: say \`rt run\` in crates/rowfn_stream, or set ROWFN_STREAM" >&2
    exit 1
fi
cp "$program" "$scratch/rowfn_stream"
chmod 755 "$scratch/rowfn_stream"

# the expression over the rows, and the columns that it reads
expression="(a + b < 100 and s like '%nitr%') or a is null as wanted"
columns='a i64?, b i64?, s utf8'

"$here/rows" "$count" > "$scratch/rows.csv"
# the only answer may be null: its row is an empty line, as PostgreSQL writes it
"$scratch/rowfn_stream" --blank-lines null --columns "$columns" "$expression" "$scratch/rows.csv" > "$scratch/whole.csv"

needs() {
    for word in "$@"; do
        if ! command -v "$word" > /dev/null; then
            echo "$word is not there: install $packages" >&2
            exit 1
        fi
    done
}

# whether an engine's output is that over the whole file; both are kept if they differ
compare() {
    if cmp -s "$1" "$scratch/whole.csv"; then
        echo "$2: the same as over the whole file, $(wc -l < "$1") lines"
    else
        differ=$(mktemp -d /tmp/rowfn_differ.XXXXXX)
        cp "$1" "$scratch/whole.csv" "$differ"
        echo "$2: another answer than over the whole file: $differ/$(basename "$1") beside $differ/whole.csv" >&2
        exit 1
    fi
}
