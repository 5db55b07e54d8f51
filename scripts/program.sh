# What the scripts know of the program twin_lathe: where it stands, what it stands on, and whether it is built. Sourced.
# Whoever sources it has set `root`, the repository's folder.

crate=$root/crates/twin_lathe
program=$crate/out/twin_lathe
# Beside it, the same program compiled without any proof (`./twin_lathe try`).
unproved=$crate/out/twin_lathe.unproved
# What the toolchain hands to its compiler for the library of include/lathe.h, kept by scripts/build_library.
library_module=$root/crates/lathe_c/out/lathe_c.bc
# Once a gate has passed here: of which sources it proved the library and all below it, whose libraries it left in out/rlib of each crate.
library_proofs=$root/crates/lathe_c/out/proofs
# Beside each of these stands its mark, a file with `.built` after its name: its checksum, the lines of crates.txt that it stands on,
# and the checksum of their sources when its building began. (Of a program that is `src` and `specs`: a proof that is written anew later
# changes nothing of what was proved.) The proved program and the module have one only if they were proved and built whole. A file with `.toolchain` after its name has the identity of the toolchain that built it, and one with `.commit` the commit
# and the time. A file with `.same` or `.other` keeps by its own time since when all of that was found unchanged, or changed.

# A release (scripts/release) has no sources: its program stands in `program`, and its file PROOF says what was proved of it.
proof=$root/PROOF
is_release() { [[ -f $proof ]]; }
if is_release; then
    program=$root/program/twin_lathe
    unproved=$program
fi

# The folder of the toolchain is the one that RATTLE names, or else `rt` is on the PATH.
find_tool() {
    local tool=${RATTLE:+$RATTLE/bin/rt}
    [[ -n $tool ]] || tool=$(command -v rt)
    [[ -n $tool && -x $tool ]] || return 1
    printf '%s' "$tool"
}

# The folder of the toolchain whose tool is $1.
find_kit() {
    local kit=${RATTLE:-$(dirname -- "$(dirname -- "$(readlink -f -- "$1")")")}
    printf '%s' "$kit"
    [[ -f $kit/bin/rtlib.py && -x $kit/bin/rattle && -x $kit/bin/rattle-link && -x $kit/toolchain/bin/clang ]]
}

# Says on the error output that there is no toolchain, and ends.
no_tool() {
    printf '%s: the tool rt, which proves and builds the program, is not on the PATH, and RATTLE does not name its folder\n' \
        "${0##*/}" >&2
    exit 127
}

# The lines of crates.txt of the crates named and of all that they stand on, by crates.txt's own order. It fails if there is no such crate.
lines_below() {
    awk -v wanted="$*" '
        BEGIN { count = split(wanted, names, " "); for (k = 1; k <= count; k++) is_wanted[names[k]] = 1 }
        { sub(/#.*/, "") }
        /:/ {
            name = $1; sub(/:.*/, "", name); order[++lines] = name; whole[name] = $0
            text = $0; sub(/^[^:]*:/, "", text); below[name] = text
        }
        END {
            for (name in is_wanted) if (!(name in below)) exit 1
            for (grown = 1; grown;) {
                grown = 0
                for (name in is_wanted) {
                    count = split(below[name], names, " ")
                    for (k = 1; k <= count; k++)
                        if (names[k] in below && !(names[k] in is_wanted)) { is_wanted[names[k]] = 1; grown = 1 }
                }
            }
            for (k = 1; k <= lines; k++) if (order[k] in is_wanted) print whole[order[k]]
        }' "$root/crates.txt"
}

# Copies the sources of the program, or of the crate $2, and of all below it to the new folder $1, as a repository of its own: without
# the crates of tests and without planted bugs, so that a build does not wait for those.
copy_sources() {
    local name kind
    mkdir -p "$1/.git" "$1/crates" || return
    cp -- "$root/HANDLES" "$1" || return
    lines_below "${2:-twin_lathe}" >"$1/crates.txt" || return
    while IFS=': ' read -r name _; do
        mkdir "$1/crates/$name" || return
        for kind in src specs proofs data args stdin stdout status; do
            [[ ! -e $root/crates/$name/$kind ]] || cp -r -- "$root/crates/$name/$kind" "$1/crates/$name" || return
        done
    done <"$1/crates.txt"
}

# The checksum of the names and contents of all files in the folders $2 .. of the crate $1 and of all that it stands on.
sum_sources() {
    local top=$1 name kind folders=()
    shift
    while IFS=': ' read -r name _; do
        for kind in "$@"; do [[ ! -d $root/crates/$name/$kind ]] || folders+=("$name/$kind"); done
    done < <(lines_below "$top")
    ((${#folders[@]})) && (cd "$root/crates" && find "${folders[@]}" ! -type d -print0 | LC_ALL=C sort -z | xargs -0 sha256sum -- | sha256sum)
}

# The same of all with its proofs, and of what the program is compiled of.
sum_proved() { sum_sources "${1:-twin_lathe}" src specs proofs; }
sum_program() { sum_sources twin_lathe src specs; }

# What the mark of the file $1, which is built of the crate $2 from sources with the checksum $3, has to say.
mark_text() {
    sha256sum <"$1"
    lines_below "$2"
    printf '%s\n' "$3"
}

# Whether the file $1 was built by the toolchain that is here, if there is one.
is_of_toolchain() {
    local here
    here=$(tool_version) || return 0
    [[ -f $1.toolchain && $(<"$1.toolchain") == "$here" ]]
}

# Whether nothing has changed since the time of the file $2: the file $1, its mark, and all whose checksum the command $3 gives. The system
# notes each change of a file, and each new, lost or renamed name in a folder, by its own clock. (`find` ends at the first that is newer.)
is_unchanged_since() {
    local newer others=(-name out -o -name must-fail)
    [[ -f $2 ]] || return
    [[ $3 != sum_program ]] || others+=(-o -name proofs)
    newer=$(find "$1" "$1.built" "$root/crates.txt" "$root/crates" \( "${others[@]}" \) -prune -o -cnewer "$2" -print -quit 2>&1) &&
        [[ -z $newer ]]
}

# Whether the file $1 is built of the crate $2, by this toolchain, and neither that nor the sources, whose checksum the words $3 .. give,
# have changed since. All of it is summed only if something there is newer than the last look.
is_current() {
    local built=$1 top=$2
    shift 2
    [[ -f $built && -f $built.built ]] && is_of_toolchain "$built" || return
    if is_unchanged_since "$built" "$built.same" "$1"; then return 0; fi
    if is_unchanged_since "$built" "$built.other" "$1"; then return 1; fi
    is_summed "$built" "$top" "$@"
}

# The same by the checksums of all that it is built of. Beside it stands what was found, with a time before they were taken: what has
# changed since then is looked at again. (The system's times have steps of up to 10 ms, so it waits for two of them before it sums. In a
# folder that may not be written nothing is kept, and each call sums.)
is_summed() {
    local built=$1 top=$2 look found=same
    shift 2
    look=$(mktemp -- "$built.look.XXXXXX" 2>/dev/null) && sleep 0.02
    [[ $(<"$built.built") == "$(mark_text "$built" "$top" "$("$@")")" ]] || found=other
    if [[ -n $look ]]; then
        rm -f -- "$built.same" "$built.other"
        mv -f -- "$look" "$built.$found"
    fi
    [[ $found == same ]]
}

# Whether the proved program is built, the one without proofs is compiled, and the library's module is kept, from the sources as they are.
# (In a release there is one program, which was either.)
is_built() {
    if is_release; then grep -q '^proved' "$proof"; else [[ -x $program ]] && is_current "$program" twin_lathe sum_program; fi
}
is_compiled() { is_release || { [[ -x $unproved ]] && is_current "$unproved" twin_lathe sum_program; }; }
is_module_kept() { is_current "$library_module" lathe_c sum_proved lathe_c; }

# Notes that a file was built (the proved program, if $2 names no other) of the crate $3 or twin_lathe, by the toolchain that is here and
# from sources whose checksum stands in the file $1.
note_built() {
    local built=${2:-$program}
    tool_version >"$built.toolchain" && mark_text "$built" "${3:-twin_lathe}" "$(<"$1")" >"$built.built" || return
    printf '%s\n' "$(commit_here)" "$(date -u '+%Y-%m-%d %H:%M UTC')" >"$built.commit"
}

# What was proved of the program that is built: that it was, or not, and when, of which commit and sources, by which toolchain.
proof_text() {
    local commit=none when='' tool
    if is_release; then
        cat -- "$proof"
    elif is_built; then
        [[ ! -f $program.commit ]] || { read -r commit && read -r when; } <"$program.commit"
        printf 'proved%s\ncommit %s\nsources %s\ntoolchain %s\n' "${when:+ on $when}" "$commit" "$(sed -n '$s/ .*//p' "$program.built")" \
            "$(<"$program.toolchain")"
    else
        tool=$(tool_version) || tool='none here'
        printf 'not proved here%s: `twin_lathe prove` does it\ncommit %s\ntoolchain %s\n' \
            "$([[ ! -e $program.built ]] || echo ' as the sources are now')" "$(commit_here)" "$tool"
    fi
}

# The commit of the sources as they are, with `-dirty` after it if a file differs from it.
commit_here() { git -C "$root" describe --always --dirty --abbrev=12 --exclude '*' 2>/dev/null || echo 'none (no git repository)'; }

# The version number: VERSION has it, and nothing else.
version_number() {
    local number
    { read -r number <"$root/VERSION"; } 2>/dev/null || number='of no version'
    printf '%s' "$number"
}

# The crates of the repository below the library for C.
crates_below_library() { lines_below lathe_c | sed -n 's/^\([a-z0-9_]*\).*/\1/p' | grep -vx lathe_c; }

# Takes away the libraries that an earlier gate left. The tool would put them back over those of the next one. (a library of another command
# has a stamp, and stays)
drop_gate_libraries() {
    local folder
    for folder in "$root"/crates/*/out/rlib; do
        [[ ! -d $folder || -e $folder/stamp ]] || rm -r -- "$folder"
    done
}

# What `library_proofs` has to say for sources with the checksum $1.
proofs_text() {
    tool_version
    lines_below lathe_c
    printf '%s\n' "$1"
}

# Notes that a gate has left the libraries below the library for C, of sources whose checksum stands in the file $1; or, if one of them is
# not that gate's, nothing.
note_libraries() {
    local name folder
    rm -f -- "$library_proofs"
    while read -r name; do
        folder=$root/crates/$name/out/rlib
        [[ -d $folder/$name.rlib && ! -e $folder/stamp ]] || return 0
    done < <(crates_below_library)
    proofs_text "$(<"$1")" >"$library_proofs"
}

# Whether these libraries are here, of this toolchain and of the sources as they are.
are_libraries_here() { [[ -f $library_proofs && $(<"$library_proofs") == "$(proofs_text "$(sum_proved lathe_c)")" ]]; }

# The identity of the toolchain, if there is one. (its file is read where there is one, since `rt version` takes half a second)
tool_version() {
    local tool kit
    tool=$(find_tool) || return
    kit=${RATTLE-}
    [[ -n $kit ]] || { kit=$(readlink -f -- "$tool"); kit=${kit%/*/*}; }
    if [[ -s $kit/KIT-ID ]]; then printf '%s\n' "$(<"$kit/KIT-ID")"; else "$tool" version; fi
}
