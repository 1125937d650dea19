# shellcheck shell=sh disable=SC2154
# A workspace for a driver of crates, to be sourced: $here is this folder, $work the workspace's.

# driver_workspace CRATES LINE FILE: copies of these crates, with what was proved of them before, and beside them the
# crate `drive`, whose line in crates.txt is LINE and whose main is FILE of this folder.
driver_workspace() {
    mkdir -p "$work/crates/drive/src"
    : >"$work/crates.txt"
    for crate in $1; do
        cp -a "$here/../crates/$crate" "$work/crates/"
        grep "^${crate}[: ]" "$here/../crates.txt" >>"$work/crates.txt"
    done
    echo "$2" >>"$work/crates.txt"
    cp "$here/../HANDLES" "$work/"
    cp "$here/$3" "$work/crates/drive/src/main.rt"
    git init -q "$work"
}
