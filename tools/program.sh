#!/usr/bin/env bash
# program.sh NAME: proves a program and all that it stands on, and links it as target/bin/NAME.
set -eu
cd "$(dirname "$0")/.."
(cd "crates/$1" && rt run </dev/null)
mkdir -p target/bin
cp "crates/$1/out/$1" target/bin/
