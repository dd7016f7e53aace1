# What ./xheap, ./prove, ./test and ./gate share. They set top, the folder of the repository, and read this file.
# shellcheck shell=bash disable=SC2046,SC2154

# stands_on NAME ..: these crates and those that they stand on, one a line, lowest first
stands_on() {
    sed '1!G; h; $!d' "$top/crates.txt" | awk -F '[ :]+' -v wanted=" $* " '
        index(wanted, " " $1 " ") { print $1; sub(/#.*/, ""); gsub(/[ :]+/, " "); wanted = wanted $0 " " }' | sed '1!G; h; $!d'
}

# sources_of NAME: a checksum of crates.txt, and of src, specs and proofs of the crate NAME and of those it stands on
sources_of() {
    local crate parts=(crates.txt)
    for crate in $(stands_on "$1"); do parts+=("crates/$crate/"{src,specs,proofs}); done
    (cd "$top" && { find -L "${parts[@]}" -type f -print0 2>/dev/null || :; } | LC_ALL=C sort -z | xargs -0 cksum) | cksum
}

# program_of NAME FOLDER: a checksum of the program of the crate NAME, and of its tests, that stand there, if any do
program_of() { { cat "$top/$2/$1" "$top/$2/$1_tests" 2>/dev/null || :; } | cksum; }

# kit: the identity of the kit whose rt is on the PATH
kit() { cat "$(dirname "$(readlink -f "$(type -P rt)")")/../KIT-ID"; }

# is_made NAME FOLDER SOURCES: what stands there of the crate NAME was made of sources with this checksum, and by the kit
# on the PATH, if any
is_made() {
    local sum="$top/$2/$1.sum"
    { echo "$3"; program_of "$1" "$2"; kit || sed -n 3p "$sum"; } 2>/dev/null | cmp -s - "$sum"
}

# note NAME FOLDER SOURCES: from now on that is so
note() { { echo "$3"; program_of "$1" "$2"; kit; } >"$top/$2/$1.sum"; }

# checked NAME SOURCES: program is that of the crate NAME, or of its tests, unproved, with a check at each index, sum and
# access. It is kept in .checked, where that can be written. rt try makes it, and runs it in folders of its own: on
# nothing, 200 times, or test by test. There it is linked to, and whole once its folder is gone. Status 3: there was none.
checked() {
    local crate="$top/crates/$1" it="" how=(--test) build
    program="$top/.checked/$1" room=""
    [ -f "$crate/src/main.rt" ] || program+=_tests
    ! is_made "$1" .checked "$2" || return 0
    echo "$1: building it unproved, 1 to 4 minutes" >&2
    begin || return
    [[ "$program" == *_tests ]] || { how=(--cases "$room/in") && mkdir "$room/in" && touch "$room/in/"{1..200}; } || return
    (cd "$crate" && rt try --steps 1 "${how[@]}") </dev/null >"$room/said" 2>&1 &
    build="$!"
    while [ ! -e "$room/program" ] && kill -0 "$build"; do
        for it in "$room"/*/*/program; do [ ! -e "$it" ] || ln "$it" "$room/program"; done
        sleep 0.02
    done 2>/dev/null
    while [ -e "$it" ]; do sleep 0.05; done
    { end "$build"; wait "$build"; } 2>/dev/null
    if [ -e "$room/program" ]; then
        {
            mkdir -p "${program%/*}" && cp "$room/program" "$program.$$" &&
                mv "$program.$$" "$program" && note "$1" .checked "$2"
        } 2>/dev/null || { rm -f "$program.$$" 2>/dev/null; program="$room/program"; }
    else
        cat "$room/said" >&2
        ! grep -q "runners=1" "$room/said" || return 3
        return 1
    fi
}

# begin: makes a folder, room, for rt too; it goes with the script, as does all that it started
begin() {
    room=""
    trap 'trap "" INT TERM HUP; { end $(jobs -p) || :; wait; rm -rf "$room"; } 2>/dev/null' EXIT
    trap 'exit 130' INT && trap 'exit 143' TERM && trap 'exit 129' HUP
    room="$(mktemp -d)" && export TMPDIR="$room"
}

# end PID ..: ends these and all that they started; each is stopped first, so that it starts no more meanwhile
end() {
    local process
    for process in "$@"; do
        kill -STOP "$process" || continue
        end $(cat "/proc/$process/task/"*/children)
        kill -KILL "$process"
    done
}
