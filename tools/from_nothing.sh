#!/bin/sh
# The program and the library, proved and built in a fresh clone of the repository $1, in the folder $2, are PROGRAM and
# LIBRARY in each byte. `checks` beside this runs it. Root proves as nobody, who finds nothing that was kept.
set -e
git clone -q "$1" "$2/clone"
cd "$2/clone"
if [ "$(id -u)" = 0 ]; then
    chown -R nobody "$2"
    chmod 755 "$2"
    set -- runuser -u nobody -- env HOME="$2"
else
    set --
fi
began=$(date +%s)
"$@" ./mvfeed run <examples/first.script >first.transcript 2>told || {
    cat told
    exit 1
}
cat told
echo "the program took $(($(date +%s) - began)) seconds"
if grep 'was proved before' told; then exit 1; fi
cmp first.transcript examples/first.transcript
cmp crates/mvfeed/out/mvfeed "$PROGRAM"
"$@" tools/side_by_side.py ripsawbean 2>rest || {
    cat rest
    exit 1
}
cmp crates/ripsawbean/out/libripsawbean.a "$LIBRARY"
