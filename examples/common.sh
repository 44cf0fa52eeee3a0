# Shared by the examples: the library's folder, a Python that has the needed packages, and a scratch folder. Source it with `.`; do not run it.
set -eu
here=$(cd "$(dirname "$0")" && pwd)
prefix=${1:-${YURKIJE_PREFIX:-}}
if [ -z "$prefix" ] || [ ! -f "$prefix/lib/libyurkije.so" ]; then
    echo "usage: $0 PREFIX: the folder that tools/install filled" >&2
    exit 64
fi
prefix=$(cd "$prefix" && pwd)
export YURKIJE_PREFIX="$prefix" PYTHONPATH="$here/../../bindings/python" PYTHONDONTWRITEBYTECODE=1
scratch=$(mktemp -d /tmp/yurkije_example.XXXXXX)

# However an example ends, it stops what it started: an example that starts something defines `stop`.
stop() { :; }
finish() {
    status=$?
    trap - EXIT
    stop
    rm -rf "$scratch"
    exit "$status"
}
trap finish EXIT
trap 'exit 129' HUP
trap 'exit 130' INT
trap 'exit 143' TERM

# Debian's packages are Debian's Python's, which need not be the first on the path.
python_with() {
    for word in ${PYTHON:-python3 /usr/bin/python3}; do
        if "$word" -c "import $1" 2> /dev/null; then
            echo "$word"
            return
        fi
    done
    echo "$1 is not there: install $2, or set PYTHON to a Python that has it" >&2
    exit 1
}
