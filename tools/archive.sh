#!/usr/bin/env bash
# archive.sh: proves the library for C and all that it stands on, and puts it as target/staticlib/libreach.a.
set -eu
cd "$(dirname "$0")/.."
(cd crates/reach_c && rt lib)
mkdir -p target/staticlib
cp crates/reach_c/out/libreach_c.a target/staticlib/libreach.a
