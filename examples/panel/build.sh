#!/bin/sh
# Proves the crate panel, links example.c with it, and runs it. Works from any folder: sh examples/panel/build.sh
set -eu
root=$(dirname "$(dirname "$(dirname "$(readlink -f "$0")")")")
"$root/tools/host" small "$root/target/example/example" "$root/examples/panel/example.c"
exec "$root/tools/x86" "$root/target/example/example"
