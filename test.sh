#!/usr/bin/env bash
# All tests of the repository: its text and formats, in seconds; rt's own gate; each wrong version of a must-fail edit for itself; the Rust packages,
# the comparison of the library with the Rust implementation, the programs on many files; the block library by itself. Where all pass, the last line
# is the verdict of rt's gate again.
set -euo pipefail
cd "$(dirname "$0")"

for command in rt cargo rustc rustfmt cc python3; do
    if ! command -v "$command" >/dev/null; then
        echo "test: no command $command: the Rattle kit, Rust, a C compiler and Python are needed" >&2
        exit 1
    fi
done

recorded=$(cat docs/KIT)
kit=$(rt version)
if [ "$kit" != "$recorded" ]; then
    echo "test: this kit is '$kit'; the repository was proved with '$recorded'"
fi

work=$(mktemp -d)
comparison=
trap '[ -z "$comparison" ] || kill "$comparison" 2>/dev/null || true; rm -rf "$work"' EXIT

# What needs no proof first, so that a slip ends the tests at once. rt ci itself refuses a .rt or .antt file that is not laid out.
cargo test --quiet --release --manifest-path host/Cargo.toml --package checks
cargo run --quiet --release --manifest-path host/Cargo.toml --bin check_repository .
cargo fmt --manifest-path host/Cargo.toml --all --check

# rt's own gate: every proof, every must-fail edit, every program as two compilers build it. An edit that cannot be applied or read fails nothing
# there, and here it does.
rt ci | tee "$work/told"
if ! grep -q '^rt: ok' "$work/told" || grep -q '^rt: ok.*, [0-9]* bad' "$work/told"; then
    echo "test: a must-fail edit is bad, as told above: it shows nothing of a contract" >&2
    exit 1
fi

# What it proved is linked for C and Rust. The comparison runs beside what comes after it.
python3 tools/proved.py archive
cargo build --quiet --release --manifest-path host/Cargo.toml --bins
host/target/release/compare >"$work/compared" &
comparison=$!

# An edit may hold several wrong versions: each has to be refused for itself.
host/target/release/check_refusals . "$work/told"

cargo test --quiet --release --manifest-path host/Cargo.toml
host/target/release/check_programs .

# The block library goes to the relay-card maker by itself: a copy that holds nothing but the foundations and the block library lacks nothing. What
# rt ci proved of these crates it takes there as kept.
copy=$work/block_library
mkdir "$copy"
crates=$(sed -nE 's/^(lists|fault|powers|elements|block[a-z_]*):.*/\1/p' crates.txt)
for crate in $crates; do
    tar -c --exclude="crates/$crate/out" "crates/$crate" | tar -x -C "$copy"
    grep "^$crate:" crates.txt >>"$copy/crates.txt"
done
if ! (cd "$copy" && rt ci) >"$work/alone"; then
    cat "$work/alone"
    exit 1
fi
echo "the block library by itself: $(tail -n 1 "$work/alone")"

compared=0
wait "$comparison" || compared=$?
comparison=
cat "$work/compared"
[ "$compared" -eq 0 ]
tail -n 1 "$work/told"
