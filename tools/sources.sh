# shellcheck shell=sh
# Functions that ./fku, tools/which, tools/build, tools/release and .ci/release share: the sources of the program and
# their checksum, the released program, and the one that was built here. They need sh, awk, find, sort, sha256sum, sed
# and uname. A script sets `top`, the folder of the checkout, before it reads this file.

release=$top/release/fku-linux-x86-64
built=$top/crates/fku/out/fku
stamp=$top/crates/fku/out/built

# Prints the lines of crates.txt for fku and for its direct and indirect dependencies, dependencies first.
crate_lines() {
    awk '
        function visit(name, words, count, k) {
            if (!(name in line) || name in seen) return
            seen[name] = 1
            count = split(line[name], words, /[ :]+/)
            for (k = 2; k <= count; k++) visit(words[k])
            print line[name]
        }
        { sub(/#.*/, ""); name = $1; sub(/:.*/, "", name); if (name != "") line[name] = $0 }
        END { visit("fku") }' "$top/crates.txt"
}

# Prints the names of these crates.
crates() {
    crate_lines | sed 's/[ :].*//'
}

# Prints the checksum of the sources: the sha256 of these lines of crates.txt and of the checksum and the name of each
# file in the folders src, specs and proofs of these crates.
sources_sum() (
    cd "$top/crates" || exit
    lines=$(crate_lines)
    set --
    for crate in $(echo "$lines" | sed 's/[ :].*//'); do
        for part in src specs proofs; do
            if [ -d "$crate/$part" ]; then set -- "$@" "$crate/$part"; fi
        done
    done
    [ $# -gt 0 ] || exit
    {
        echo "$lines"
        find -L "$@" -type f -exec sha256sum {} + | LC_ALL=C sort
    } | sum_of
)

# Prints the sha256 of the standard input.
sum_of() {
    sum=$(sha256sum) && echo "${sum%% *}"
}

# Prints the value of a key in the text of the release.
released() {
    sed -n "s/^$1: //p" "$release.txt" 2>/dev/null
}

# Succeeds if a file is a program with this checksum.
is_program() {
    [ -n "$2" ] && [ -x "$1" ] && [ "$(sum_of <"$1")" = "$2" ]
}

# Succeeds if the program that was built here has sources with this checksum.
is_built() {
    [ -r "$stamp" ] && read -r stamped program_sum <"$stamp" && [ "$stamped" = "$1" ] && is_program "$built" "$program_sum"
}

# Sets `unfit` to the reason why the released program cannot run on this system, or to nothing if it can.
test_system() {
    unfit=
    system=$(uname -sm)
    library=$(getconf GNU_LIBC_VERSION 2>/dev/null) || library=
    wanted=$(released c-library)
    if [ "$system" != 'Linux x86_64' ]; then
        unfit="it is for Linux on 64-bit Intel and AMD processors (Linux x86_64), and this system is $system"
    elif [ -z "$library" ]; then
        unfit="it needs the GNU C library, version $wanted or later, and this system has another C library"
    elif ! is_at_least "${library#glibc }" "$wanted"; then
        unfit="it needs the GNU C library, version $wanted or later, and this system has ${library#glibc }"
    fi
}

# Succeeds if a version, such as 2.36, is equal to another one or later.
is_at_least() {
    [ "${1%%.*}" -gt "${2%%.*}" ] || { [ "${1%%.*}" -eq "${2%%.*}" ] && [ "$(minor "$1")" -ge "$(minor "$2")" ]; }
}

minor() {
    rest=${1#*.}
    echo "${rest%%.*}"
}

# Chooses the program to run: sets `program` to its path and `why` to what it is; or `program` to nothing and `why` to
# the reason why there is none. Sets `sources` to the checksum of the sources.
choose() {
    sources=$(sources_sum)
    program=
    if [ -n "$sources" ] && [ "$(released sources)" = "$sources" ]; then
        test_system
        if [ -n "$unfit" ]; then
            why="the released program, $release, cannot run here: $unfit"
        elif is_program "$release" "$(released sha256)"; then
            program=$release
            why='the released program: its sources are those in crates/'
        else
            why="$release is not the program that was released, or is not executable"
        fi
    elif [ -r "$release.txt" ]; then
        why='the released program is of other sources than those in crates/: these were changed, or the release is old'
    else
        why="there is no release: no $release.txt"
    fi
    if [ -z "$program" ] && is_built "$sources"; then
        program=$built
        why='the program that was proved and built here, of the sources in crates/'
    fi
}
