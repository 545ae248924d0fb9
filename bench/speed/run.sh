#!/bin/sh
# Builds the proved worksheet as a static library and the harness around it, and runs it: the table; with `growth`
# how times grow; with `steps` what each change to the plain baseline is worth. The library is proved anew where a source is newer.
set -e
here=$(cd "$(dirname "$0")" && pwd)
root=$(cd "$here/../.." && pwd)
cd "$root"
library=crates/linked/out/liblinked.a
if [ ! -f "$library" ] || [ -n "$(find crates crates.txt -name out -prune -o -newer "$library" -type f -print | head -n 1)" ]; then
    (cd crates/linked && rt lib >/dev/null)
fi
mkdir -p target/speed
rustc --edition 2024 -C opt-level=3 -C codegen-units=1 -L "$root/crates/linked/out" -l static=linked -o target/speed/speed "$here/src/main.rs"
exec target/speed/speed "$@"
