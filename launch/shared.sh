# What ./tform and ./prove share: where programs are kept, and whether one is made from the sources as they stand.
#
# Programs, and what proofs and builds keep, lie outside of the checkout, by its path, in the user's cache (else in its .git), so
# that nothing that goes on in the checkout is in their way. They may be removed at any time. There, in proved/ and in unproved/
# apart, stand a program and the sources that it was made from, in made_from/.
# shellcheck shell=sh
# shellcheck disable=SC2154 # (self is set by who reads this)
top=${self%/*}
cache=
for it in "${HOME:+$HOME/.cache}" "$XDG_CACHE_HOME"; do
    case $it in /*) cache=$it/tform ;; esac
done
cached=${cache:+$cache$top/.kept}
beside=$top/.git/tform
built=$top/crates/tform_cli/out/tform_cli
children=

say() {
    printf '%s: %s\n' "${self##*/}" "$*" >&2
}

# stop STATUS: ends, and all that was started
stop() {
    trap - INT TERM HUP
    # shellcheck disable=SC2086
    [ -z "$children" ] || kill $children 2>/dev/null
    wait
    exit "$1"
}

# give_up STATUS WORDS: ends, and says why
give_up() {
    say "$2"
    stop "$1"
}

# choose_place: sets kept, the folder of this checkout's programs
choose_place() {
    for kept in "$cached" "$beside"; do
        [ "$kept" != "$beside" ] || [ -d "$top/.git" ] || continue
        [ -n "$kept" ] && mkdir -p "$kept" 2>/dev/null && [ -w "$kept" ] && return
    done
    give_up 126 "there is no place to keep the program: set XDG_CACHE_HOME to a folder that can be written"
}

# need_kit: sets kit, the kit's folder, and ends where it isn't there
need_kit() {
    command -v rt >/dev/null 2>&1 ||
        give_up 127 "the program isn't built yet, and the Rattle kit that builds it isn't here: no command 'rt' on PATH"
    kit=$(readlink -f "$(command -v rt)")
    kit=${kit%/bin/rt}
}

# is_newest PROGRAM: it is there, and nothing that it is made from was touched since
is_newest() {
    [ -x "$1" ] && touched=$(find "$top/crates.txt" "$top/HANDLES" "$top"/crates/*/src "$top"/crates/*/specs \
        "$top"/crates/*/proofs -cnewer "$1" -print -quit 2>/dev/null) && [ -z "$touched" ]
}

# is_current PLACE: its program is the newest, and each folder that this was made from is there
is_current() {
    is_newest "$1/program" || return
    for it in "$1"/made_from/crates/*/*; do
        [ -d "$top/${it#"$1/made_from/"}" ] || return
    done
}

# is_same PLACE: its program was made from the sources as they stand
is_same() {
    [ -x "$1/program" ] && cmp -s "$top/crates.txt" "$1/made_from/crates.txt" || return
    for it in "$1"/made_from/crates/*; do
        for part in src specs proofs; do
            other=$top/crates/${it##*/}/$part
            [ ! -d "$it/$part" ] && [ ! -d "$other" ] || diff -r "$it/$part" "$other" >/dev/null 2>&1 || return
        done
    done
}

# renew PLACE: makes its program as new as it is, where it was made from the sources as they stand
renew() {
    : >"$kept/looked"
    is_same "$1" && touch -r "$kept/looked" "$1/program"
}

# copy_sources FOLDER: copies what the program is made from
copy_sources() {
    rm -rf "$1"
    mkdir -p "$1/crates" && cp "$top/crates.txt" "$top/HANDLES" "$1/" || return
    for it in "$top"/crates/*/src "$top"/crates/*/specs "$top"/crates/*/proofs; do
        [ -d "$it" ] || continue
        part=${it#"$top/"}
        mkdir -p "$1/${part%/*}" && cp -R "$it" "$1/$part" || return
    done
}

# keep PLACE PROGRAM LIKE SOURCES: keeps the program there, as old as the file LIKE, with the sources that it was made from
keep() {
    mkdir -p "$1" && rm -rf "$1/made_from" &&
        cp "$2" "$1/program.new" && touch -r "$3" "$1/program.new" && mv "$1/program.new" "$1/program" && mv "$4" "$1/made_from"
}

# find_proved: takes the proved program as the sources stand, the one that is kept or what rt ci, or rt run, built in the checkout
find_proved() {
    is_current "$kept/proved" || renew "$kept/proved" && return
    is_newest "$built" && copy_sources "$kept/sources" && is_newest "$built" && keep "$kept/proved" "$built" "$built" "$kept/sources"
}

# take_turn FD NAME WORDS: waits while another one has the lock of this name, and says so; all that is started from here holds it
take_turn() {
    command -v flock >/dev/null 2>&1 || return 0
    eval "exec $1>\"\$kept/\$2\""
    flock -n "$1" && return
    say "$3"
    flock "$1"
}

# forget_gone: removes what was kept for checkouts that are no more
forget_gone() {
    [ -n "$cache" ] || return 0
    find "$cache" -type d -name .kept -prune -print 2>/dev/null | while IFS= read -r it; do
        checkout=${it#"$cache"}
        [ -d "${checkout%/.kept}" ] || { rm -rf "$it" && rmdir -p "${it%/.kept}" 2>/dev/null; }
    done
}

# read_crates FILE: sets names, the crates that the program is made of, lowest first, and for each NAME below_NAME and said_NAME
read_crates() {
    listed=
    while IFS= read -r line || [ -n "$line" ]; do
        line=${line%%#*}
        case $line in *:*) ;; *) continue ;; esac
        name=${line%%:*}
        name=${name%% *}
        listed="$listed $name"
        eval "said_$name=\$line below_$name=" || give_up 126 "crates.txt can't be read at: $line"
    done <"$1"
    names='' left=$listed
    while [ -n "$left" ]; do
        later=
        for name in $left; do
            eval "said=\$said_$name"
            below=
            for dep in ${said#*:}; do
                case " $listed " in *" $dep "*) ;; *) continue ;; esac
                case " $names " in *" $dep "*) ;; *) later="$later $name" && continue 2 ;; esac
                eval "deeper=\$below_$dep"
                for it in $deeper "$dep"; do
                    case " $below " in *" $it "*) ;; *) below="$below $it" ;; esac
                done
            done
            eval "below_$name=\$below"
            names="$names $name"
        done
        [ "$later" != "$left" ] || give_up 126 "crates.txt goes in a circle:$later"
        left=$later
    done
    eval "names=\"\${below_tform_cli-} tform_cli\""
}
