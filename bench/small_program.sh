# What the benches share that build a small program over copies of some crates. They begin with it: it goes to the top of the
# repository, `top`, and makes `work`, a folder to work in that is gone at the end, where built.sh did not.
if [ -z "${program:-}" ]; then
    top=$(cd "$(dirname "$0")/.." && pwd)
    cd "$top"
    work=$(mktemp -d)
    trap 'rm -rf "$work"' EXIT
fi

# Copies crates below a folder, with what a check kept of them, so that nothing is proved twice, and lists them there with what each
# stands on: bring FOLDER CRATE..
bring() {
    folder=$1
    shift
    mkdir -p "$folder/crates"
    cp "$top/HANDLES" "$folder/"
    for crate in "$@"; do
        mkdir "$folder/crates/$crate"
        for part in src specs proofs out; do
            if [ -d "$top/crates/$crate/$part" ]; then cp -a "$top/crates/$crate/$part" "$folder/crates/$crate/"; fi
        done
        grep "^$crate:" "$top/crates.txt" >> "$folder/crates.txt"
    done
}

# Proves, builds and runs the program of a crate's folder, and writes what was said only where that fails: build FOLDER [ARGUMENT..]
build() {
    place=$1
    shift
    (cd "$place" && rt run -- "$@") > "$work/build.log" 2>&1 || { tail -20 "$work/build.log" >&2; exit 1; }
}
