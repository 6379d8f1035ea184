# What the programs are proved and built from, and what is released. It is read (`.`) by scripts that have the top of
# the repository in $home.

# The programs that are released.
programs='megaswitch megatrace megadiff'

# Prints the lines of crates.txt for a program and for all crates below it.
lines_below() {
    awk -v program="$1" -F: '
        /^[a-z]/ {
            split($1, words, " ")
            below[words[1]] = $2
            crates[++count] = words[1]
            lines[count] = $0
        }
        END {
            more = program
            while (more != "") {
                found = split(more, names, " ")
                more = ""
                for (i = 1; i <= found; i++) {
                    if (names[i] in below && !(names[i] in needed)) {
                        needed[names[i]] = 1
                        more = more " " below[names[i]]
                    }
                }
                sub(/^ +/, "", more)
            }
            for (i = 1; i <= count; i++) {
                if (crates[i] in needed) {
                    print lines[i]
                }
            }
        }
    ' "$home/crates.txt"
}

# Prints the folders that have the sources of a program and of all crates below it.
source_folders() {
    lines_below "$1" | while read -r crate rest; do
        for part in src specs proofs; do
            folder=crates/${crate%%:*}/$part
            [ ! -d "$home/$folder" ] || echo "$folder"
        done
    done
}

# Prints a checksum, by names and content, of all that a program is proved and built from: its lines of crates.txt,
# HANDLES, and the sources.
sources_sum() (
    cd "$home" && lines=$(lines_below "$1") && [ -n "$lines" ] || exit 1
    # The folders are several words.
    files=$(find HANDLES $(source_folders "$1") ! -type d -exec sha256sum {} +) || exit 1
    sum=$(printf '%s\n' "$lines" "$(printf '%s\n' "$files" | LC_ALL=C sort)" | sha256sum) && echo "${sum%% *}"
)

# Whether a program was proved and built here, and no source is newer.
is_built() (
    cd "$home" && program=crates/$1/out/$1 && [ -x "$program" ] && [ -z "$(
        find crates.txt HANDLES $(source_folders "$1") -newer "$program" 2>&1 | head -n 1
    )" ]
)

# Prints what release/sources tells under these words.
released() {
    sed -n "s/^$1 //p" "$home/release/sources" 2>/dev/null
}

# Whether a file has this checksum.
has_sum() (
    sum=$(sha256sum <"$1") && [ "${sum%% *}" = "$2" ]
)
