# A clone as if all that a release asks for had been built and checked there, for the tests `refused` and `undrafted`.
# They source this, and what comes of it goes nowhere: it notes of any files that they are of the clone's sources.

# The clone $1, and in the folder $2 beside it a program, and a server as $3.
as_if_built() {
    clone=$1 beside=$2
    git clone -q "$top" "$clone"
    git -C "$clone" config user.name tester
    git -C "$clone" config user.email tester@ripsawbean.invalid
    mkdir -p "$clone/embed/out" "$clone/arm64/out"
    cp "$top"/embed/out/libripsawbean.* "$clone/embed/out/"
    cp "$PROGRAM" "$beside/mvfeed"
    cp "$3" "$beside/server"
    cp "$top/arm64/out/libripsawbean.a" "$clone/arm64/out/" 2>/dev/null ||
        echo "an archive" >"$clone/arm64/out/libripsawbean.a"
    library="crates crates.txt embed/build embed/ripsawbean.h embed/c/opening.c"
    # shellcheck disable=SC2086
    {
        note "$beside/mvfeed" crates crates.txt
        note "$clone/embed/out/libripsawbean.a" $library
        note "$clone/embed/out/libripsawbean.so" $library
        note "$beside/server" $library embed/rust server web/picture clients/javascript docs/GUIDE.md
        note "$clone/arm64/out/libripsawbean.a" crates crates.txt arm64/build arm64/heap.c
    }
}
note() { "$clone/tools/origin.py" note "$@"; }

# A row for each check, of the clone's commit, in the page $1.
as_if_checked() {
    commit=$(git -C "$clone" rev-parse --short HEAD)
    "$clone/tools/checks" --list | while read -r name _; do
        echo "| \`$name\` | passed | 1 test | 1 | \`$commit\` | 1 May 2026 | a machine |"
    done >"$1"
}
committed() { git -C "$clone" commit -q --allow-empty -a -m "$1"; }
