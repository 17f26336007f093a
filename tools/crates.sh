# shellcheck shell=bash
# What the commands of this repository share: the toolchain, the crates, and whether the compiler is built.
# It is read by `source`, with the repository's folder in `root`.
: "${root:?}"

# The toolchain's command.
find_rt() {
    if command -v rt >/dev/null; then
        command -v rt
    elif [[ -x /opt/rattle/bin/rt ]]; then
        echo /opt/rattle/bin/rt
    else
        echo "There is no command rt, neither on the PATH nor in /opt/rattle/bin" >&2
        return 1
    fi
}

# The word with which a toolchain's gate proves everything anew, for a toolchain that otherwise takes over what it proved before.
word_for_anew() {
    grep -q -e "--anew" "$(readlink -f "$1")" && echo --anew || true
}

# A crate with those of this repository that it stands on, lowest first, a line each.
crates_below() {
    awk -v top="$1" -F '[: ]+' '
        !/^#/ && NF { names[++count] = $1; line[$1] = $0 }
        END {
            needed[top] = 1
            for (round = 1; round <= count; round++)
                for (i = count; i > 0; i--)
                    if (names[i] in needed) {
                        n = split(line[names[i]], deps, "[: ]+")
                        for (j = 2; j <= n; j++) needed[deps[j]] = 1
                    }
            for (i = 1; i <= count; i++) if (names[i] in needed) print names[i]
        }' "$root/crates.txt"
}

# The lines of the list of crates for these crates.
lines_of() {
    local IFS='|'
    grep -E "^($*):" "$root/crates.txt"
}

# The files that these crates are proved and built from, a line each. Others, as those of editors, are none: another ending, or a name that
# begins with a dot.
list_sources() {
    (
        cd "$root" || exit
        find HANDLES "${@/#/crates/}" \( -name out -o -name 'must-fail*' \) -prune -o \
            -type f \( -name HANDLES -o -name '[!.]*.rt' -o -name '[!.]*.antt' \) -print | LC_ALL=C sort
    )
}

# The sums of what the compiler is proved and built from, a line each: of its crates the lines of the list of crates, and all files.
sums_of_sources() {
    local names
    mapfile -t names < <(crates_below inform)
    lines_of "${names[@]}" | sha256sum | sed 's/-$/crates.txt/'
    list_sources "${names[@]}" | (cd "$root" && xargs -d '\n' sha256sum)
}

# The files that are others than those of which the program in release/ was built: changed ones, new ones, and those that are missing.
changed_sources() {
    LC_ALL=C comm -3 <(LC_ALL=C sort "$root/release/sources.sha256") <(sums_of_sources | LC_ALL=C sort) |
        sed -E 's/^\t?[0-9a-f]+  //' | LC_ALL=C sort -u
}

# Whether the program in release/ was built from the sources at hand; else which files are others.
is_of_these_sources() {
    local files
    cmp -s "$root/release/sources.sha256" <(sums_of_sources) && return
    mapfile -t files < <(changed_sources)
    echo "release/inform was built from other sources: ${files[0]-} was changed$( ((${#files[@]} < 2)) || echo ", and $((${#files[@]} - 1)) more")"
    return 1
}

# Whether the program in release/ is the one that was put there; else what is wrong.
is_the_program() {
    if [[ ! -e $root/release/inform ]]; then
        echo "there is no release/inform"
    elif [[ $(sha256sum <"$root/release/inform") != "$(cat "$root/release/inform.sha256")  -" ]]; then
        echo "release/inform was changed: its sum is another one"
    elif [[ ! -x $root/release/inform ]]; then
        echo "release/inform cannot be run: it is not executable"
    else
        return 0
    fi
    return 1
}

# Whether a processor, by the file in which the system describes it, has what the program needs; else what it lacks.
has_features() {
    local feature
    [[ -r $1 ]] || return 0
    for feature in cx16 lahf_lm popcnt pni ssse3 sse4_1 sse4_2; do
        grep -qw "$feature" "$1" && continue
        echo "this processor lacks $feature of x86-64-v2, which release/inform needs (processors of 2009 and later have it)"
        return 1
    done
}

# Whether the program in release/ is for a machine of this kind; else why it is not.
is_for_this_machine() {
    if [[ $(uname -sm) != "Linux x86_64" ]]; then
        echo "release/inform is for Linux on x86_64, and this is $(uname -sm)"
        return 1
    fi
    has_features /proc/cpuinfo
}

# Whether release/ and the sources were found to fit, and no file and no folder of theirs was changed since.
is_unchanged() {
    local newer
    [[ -e $root/crates/inform/out/compared ]] || return
    newer=$(find "$root/crates.txt" "$root/HANDLES" "$root/release" "$root/crates" \( -name out -o -name 'must-fail*' \) -prune -o \
        -cnewer "$root/crates/inform/out/compared" -print -quit) && [[ -z $newer ]]
}

# Notes that they fit, where a file can be made: as of two seconds ago, since some systems count a file's time in whole seconds.
mark_compared() {
    { mkdir -p "$root/crates/inform/out" && touch -d '2 seconds ago' "$root/crates/inform/out/compared"; } 2>/dev/null || true
}

# Whether the program in release/ may be run here; else why not.
is_released() {
    ! is_unchanged || return 0
    is_for_this_machine && is_the_program && is_of_these_sources && mark_compared
}

# Whether a compiler was built here, and nothing that it is made of is newer than it.
is_built() {
    local out=$root/crates/inform/out names newer
    [[ -x $out/inform && -e $out/built ]] || return 1
    mapfile -t names < <(crates_below inform)
    newer=$(cd "$root" && { echo crates.txt && list_sources "${names[@]}"; } |
        xargs -d '\n' sh -c 'exec find "$@" -newer "$0" -print -quit' "$out/built")
    [[ -z $newer ]]
}

# Notes that the compiler was built of what stood there when this file was made.
mark_built() {
    touch -r "$1" "$root/crates/inform/out/built"
}

# Copies these crates, without the edits that must be refused and without their pages, with their lines of crates.txt, to a folder.
copy_crates() {
    local to=$1 name
    shift
    mkdir -p "$to/crates"
    cp "$root/HANDLES" "$to"
    lines_of "$@" >"$to/crates.txt"
    for name in "$@"; do
        tar -C "$root/crates" -c --exclude="$name/out" --exclude="$name/must-fail*" --exclude="$name/README.md" --exclude='.?*' "$name" |
            tar -C "$to/crates" -x
    done
}
