# For the benchmarks beside BuDDy, which read it in: a folder to work in, `work`, that goes when the script ends, and BuDDy itself,
# Debian's libbdd-dev, installed where it isn't there.
work=$(mktemp -d)
trap 'rm -rf "$work"' EXIT
if [ ! -f /usr/include/bdd.h ]; then
    as_root=$([ "$(id -u)" = 0 ] || echo sudo)
    $as_root apt-get install -y libbdd-dev >"$work/apt.log" 2>&1 ||
        { $as_root apt-get update && $as_root apt-get install -y libbdd-dev; } >"$work/apt.log" 2>&1 ||
        { cat "$work/apt.log" >&2; exit 70; }
fi
