# For the scripts in bench/, which set `root` first: builds the portable C engine.

# Into an archive of that folder and name; what follows goes to gcc.
build_portable_archive() {
    local folder=$1 name=$2
    shift 2
    mkdir -p "$folder"
    for part in book engine journal; do
        gcc -std=c99 -O3 -march=x86-64 -Wall -Wextra -Wpedantic "$@" \
            -c "$root/bench/portable/$part.c" -o "$folder/$part.o"
    done
    ar rcs "$folder/lib$name.a" "$folder/book.o" "$folder/engine.o" "$folder/journal.o"
}

build_portable_engine() {
    export PORTABLE_ARCHIVE_DIR="$root/target/portable"
    build_portable_archive "$PORTABLE_ARCHIVE_DIR" portable
}
