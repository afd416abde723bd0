# For the scripts here, in tests/refusals/, bench/ and examples/, which set `root` first: finds
# the library's archive, and builds it where it is missing. LOTEND_ARCHIVE_DIR may
# name another folder that has one.

export CARGO_TARGET_DIR="$root/target/cargo"

if [ -z "${LOTEND_ARCHIVE_DIR:-}" ]; then
    export LOTEND_ARCHIVE_DIR="$root/crates/lotend_c/out"
    [ -f "$LOTEND_ARCHIVE_DIR/liblotend_c.a" ] || (cd "$root/crates/lotend_c" && rt lib)
else
    LOTEND_ARCHIVE_DIR=$(cd "$LOTEND_ARCHIVE_DIR" && pwd)
fi

# The benchmark's C engine for x86-64. No -march=native: it gets plain x86-64.
build_plain_engine() {
    export PLAIN_ARCHIVE_DIR="$root/target/plain"
    mkdir -p "$PLAIN_ARCHIVE_DIR"
    for part in engine journal; do
        gcc -std=gnu11 -O3 -march=x86-64 -Wall -Wextra \
            -c "$root/bench/$part.c" -o "$PLAIN_ARCHIVE_DIR/$part.o"
    done
    ar rcs "$PLAIN_ARCHIVE_DIR/libplain.a" \
        "$PLAIN_ARCHIVE_DIR/engine.o" "$PLAIN_ARCHIVE_DIR/journal.o"
}
