# Sourced by bin/scenario and bin/timeline, which set name. Builds the program of this name where it is not there or a source is newer, and runs it.
set -u
tools=$(cd "$(dirname "${BASH_SOURCE[0]}")" && pwd -P)
program=$tools/target/release/$name
if [ ! -x "$program" ] || [ -n "$(find "$tools"/{src,Cargo.toml} "$tools"/../second/{src,Cargo.toml} -newer "$program" -print -quit)" ]; then
    command -v cargo >/dev/null || { echo "$name: cargo, which builds it, is not on the path" >&2 && exit 2; }
    echo "$name: building it, which takes some seconds" >&2
    (cd "$tools" && cargo build --release --offline --quiet --target-dir target --bin "$name") </dev/null >&2 || exit 2
    touch "$program"
fi
exec "$program" "$@"
