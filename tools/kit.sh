# kit.sh, read by the other tools with `.` at the repository's top: holds the Rattle kit to the one that this repository was made
# with, and tells what crates.txt lists.
kit_made_for='rattle-kit-13f logic dac8208d650f15bf'
if ! command -v rt >/dev/null; then
    echo "${0##*/}: rt, the Rattle kit's command, is not on PATH" >&2
    exit 2
fi

# Says so where this kit has another identity: what was proved with one kit may need a change with another. To be called before
# anything is proved.
tell_of_another_kit() {
    [ "$(rt version </dev/null)" = "$kit_made_for" ] ||
        echo "${0##*/}: this is the kit '$(rt version </dev/null)'; the repository was made with '$kit_made_for'" >&2
}

# Prints the names of all crates, as crates.txt lists them.
crate_names() { sed 's/#.*//' crates.txt | awk -F: 'NF > 1 { split($1, name, " "); print name[1] }'; }
