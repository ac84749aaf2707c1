#!/bin/sh
# An `rt` that only plays one, for test_side_by_side.py. It makes a library only where those below are made, and notes
# when it began and ended. It takes one that was made of the same text in the last folder that it knows of. A crate
# `slow` takes long the first time, and one that is `brief` some seconds.
name=$(basename "$PWD")
known=$(cat "$NOTES.$name" 2>/dev/null)
if [ ! -f out/rlib/made ] && [ -n "$known" ] && cmp -s "$known/out/rlib/made" src/*.rt; then
    mkdir -p out/rlib && cp "$known/out/rlib/made" out/rlib && pwd >"$NOTES.$name" && exit 0
fi
echo "$name begins $*" >>"$NOTES"
for below in $(sed -n "s/^$name://p" ../../crates.txt); do
    [ -f "../$below/out/rlib/made" ] || { echo "$below is not made"; exit 1; }
done
if [ -f out/rlib/made ] && cmp -s out/rlib/made src/*.rt; then exit 0; fi
mkdir -p out/incremental out/rlib
echo begun >>out/incremental/work
grep -q wrong src/*.rt && { echo "$name is not proved"; exit 1; }
if grep -q slow src/*.rt && [ "$(wc -l <out/incremental/work)" = 1 ]; then sleep 60; fi
if grep -q brief src/*.rt; then sleep 3; fi
cp src/*.rt out/rlib/made
pwd >"$NOTES.$name"
[ ! -f src/main.rt ] || cp src/main.rt "out/$name"
echo "logic=proved functions=1"
echo "$name ends" >>"$NOTES"
