# To be sourced. copy_crates NAME FOLDER copies the crate NAME and those of this repository that it
# stands on into FOLDER/crates, with what was proved of them and without their edits, and their
# lines of crates.txt; HANDLES too.
copy_crates() {
    local top line lower
    top=$(cd "$(dirname "${BASH_SOURCE[0]}")/.." && pwd)
    mkdir -p "$2/crates"
    cp "$top/HANDLES" "$2/HANDLES"
    [[ -d $top/crates/$1 && ! -e $2/crates/$1 ]] || return 0
    line=$(grep -E "^$1( [^:]*)?:" "$top/crates.txt")
    for lower in ${line#*:}; do copy_crates "$lower" "$2"; done
    cp -a "$top/crates/$1" "$2/crates/$1"
    rm -rf "$2/crates/$1/must-fail"
    echo "$line" >> "$2/crates.txt"
}
