# For scripts that start a program of the repository: what it is built of, and whether it stands. `top` is the repository.

# What each crate of the repository stands on, as crates.txt has it.
declare -A below
while read -r name needs; do
    case $name in
        "" | "#"*) ;;
        *) below[${name%:}]=$needs ;;
    esac
done < "$top/crates.txt"

# The crates that were added, those that others stand on first.
crates=()
add_with_those_below() {
    local dep crate
    for crate in "${crates[@]}"; do
        [ "$crate" != "$1" ] || return 0
    done
    for dep in ${below[$1]}; do
        [ -z "${below[$dep]+known}" ] || add_with_those_below "$dep"
    done
    crates+=("$1")
}

# Whether a program stands, and nothing that it is built of is newer, by the times of files: crates.txt, the files and folders of
# the crates that were added, and the kit's command, whose time is that of its installation.
is_current() {
    [ -x "$1" ] || return 1
    local places=("$top/crates.txt") crate part kit
    for crate in "${crates[@]}"; do
        for part in src specs proofs; do
            [ ! -d "$top/crates/$crate/$part" ] || places+=("$top/crates/$crate/$part")
        done
    done
    [ -z "$(find -H "${places[@]}" -newer "$1" -print -quit)" ] || return 1
    kit=$(command -v rt) || return 0
    [ -z "$(find "$(readlink -f "$kit")" -newercm "$1")" ]
}
