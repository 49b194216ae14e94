# What the tools share. Each reads this file with `self` set to its own path, free of links:
#
#   self=$(realpath "$0") && . "${self%/*}/lib.sh" || exit 2
#
# Paths given to the functions here are from the root of the repository.
root=${self%/*/*}
tool=${self##*/}

say() { printf '%s: %s\n' "$tool" "$*" >&2; }

# stop STATUS WORD..
stop() {
    status=$1
    shift
    say "$@"
    exit "$status"
}

# A tool's help is the comment at its head.
help() { sed -n '/^#!/d; /^#/!q; s/^# \{0,1\}//p' "$self"; }

# What a refusal's number means, in the words of rust/guard/src/refusal.rs (conformance/tests/refusals.rs compares).
ground() {
    case $1 in
    1) echo "a record is cut" ;;
    2) echo "no head first, a second head, or a record of unknown kind" ;;
    3) echo "the head's length or a field of it is wrong" ;;
    4) echo "a monitor's length or a field of it is wrong" ;;
    5) echo "a seventh monitor" ;;
    6) echo "the horizon is too long" ;;
    7) echo "more than 512 product states" ;;
    8) echo "unrealizable: the start is not kept" ;;
    9) echo "the result memory is shorter than the table or play" ;;
    10) echo "the work memory is too short" ;;
    *) echo "a number without a name" ;;
    esac
}

# readable FILE: exit 3 where it cannot be read, and why.
readable() {
    [ -e "$1" ] || stop 3 "$1: no such file"
    [ ! -d "$1" ] || stop 3 "$1: is a directory"
    [ -r "$1" ] || stop 3 "$1: cannot be read"
}

# One check or build at a time in a clone: two would undo each other's work. The lock is on a folder that nothing replaces, lasts
# as long as a process has descriptor 9, and is passed on to the tools that a tool calls by GUARD_LOCK.
lock() {
    [ "${GUARD_LOCK:-}" != "$root" ] || return 0
    command -v flock >/dev/null || {
        say "flock is not installed: nothing keeps two checks or builds at once apart"
        return
    }
    exec 9<"$root/crates"
    flock -n 9 || {
        say "waiting for another check or build in $root"
        flock 9 || exit 2
    }
    export GUARD_LOCK="$root"
}

# Before a program runs that may last.
unlock() {
    exec 9<&-
    unset GUARD_LOCK
}

# The sums of files, and of all below folders but what cargo and rt build.
sums() {
    (cd "$root" && find "$@" \( -name target -o -path 'crates/*/out' -type d \) -prune -o -type f -exec cksum {} +) 2>/dev/null |
        LC_ALL=C sort
}

# fresh PRODUCT SOURCE..: whether product and sources are as they were when it was made. Sums tell, not times: a file copied with
# its time, or one taken away, counts too.
fresh() { sums "$@" | cmp -s - "$root/target/made/${1##*/}"; }

# update COMMAND PRODUCT SOURCE..: the product, made where it is not fresh. What changes while the command runs counts as changed.
update() {
    command=$1
    shift
    fresh "$@" && return
    lock
    # another tool may have made it meanwhile
    fresh "$@" && return
    sources=$root/target/made/${1##*/}.sources
    mkdir -p "$root/target/made" || return 2
    (shift && sums "$@") >"$sources" || return 2
    (cd "$root" && $command) </dev/null || return
    made "$1" "$sources"
    rm -f "$sources"
}

# made PRODUCT FILE: notes that the product was made now, of the sources whose sums FILE has.
made() {
    note=$root/target/made/${1##*/}
    mkdir -p "$root/target/made" && { sums "$1" && cat "$2"; } | LC_ALL=C sort >"$note.new" && mv "$note.new" "$note"
}

# The folder of the Rattle toolchain, as `kit`: as rt finds it, and where that is not so, as rt says, which takes longer.
find_kit() {
    kit=$(command -v rt) || stop 2 "rt is not installed"
    kit=$(realpath "$kit")
    kit=${kit%/*/*}
    [ -f "$kit/KIT-ID" ] || kit=$(rt doc) || stop 2 "rt doc failed"
    [ -d "$kit" ] || kit=${kit%/*}
    [ -f "$kit/KIT-ID" ] || stop 2 "$kit has no KIT-ID: it is no Rattle toolchain"
}

# What the proof of a product reads.
proved_of() { printf '%s\n' crates crates.txt "$kit/KIT-ID"; }

# The crates of the repository that NAME is made of, itself last; crates.txt has the lowest first.
crates_of() {
    awk -F: -v name="$1" '
        { sub(/#.*/, "") }
        NF { split($1, word, " "); names[++n] = word[1]; below[word[1]] = $2 }
        END {
            needed[name]
            for (i = n; i; i--) if (names[i] in needed) {
                m = split(below[names[i]], crates, " ")
                for (j = 1; j <= m; j++) needed[crates[j]]
            }
            for (i = 1; i <= n; i++) if (names[i] in needed) print names[i]
        }' crates.txt
}

# prove WORD NAME FILE PRODUCT: `rt WORD` in the crate's folder, then a copy of what it made there, out/FILE. Says each crate as it is
# checked, and all that rt said where it fails.
prove() (
    grep -qE "^$2( [^:]*)?:" crates.txt || stop 2 "crates.txt has no crate $2"
    number=$(crates_of "$2" | wc -l)
    say "proving $2 and what it leans on: $number crates, some minutes where none is proved yet"
    room=$(mktemp -d) || exit 2
    trap 'rm -rf "$room"' EXIT
    trap 'exit 2' HUP INT PIPE TERM
    rm -f "crates/$2/out/$3"
    { (cd "crates/$2" && rt "$1") 2>&1; echo $? >"$room/status"; } | while IFS= read -r line; do
        printf '%s\n' "$line"
        case $line in 'crate '*': modules loaded='*) line=${line#crate } && say "${line%%:*} checked" ;; esac
    done >"$room/log"
    status=$(cat "$room/status")
    if [ "${status:-1}" -eq 0 ] && [ -f "crates/$2/out/$3" ]; then
        mkdir -p "${4%/*}" && cp "crates/$2/out/$3" "$4" && exit
        stop 2 "$4 cannot be written"
    fi
    cat "$room/log" >&2
    [ "${status:-1}" -ne 0 ] || stop 2 "rt $1 made no crates/$2/out/$3: crates.txt has $2 as something else"
    stop 2 "rt $1 ended with status ${status:-unknown}: $2 is not proved"
)

# The listing program, proved: target/bin/listing. (`rt run` runs it too, on no input.)
lister=target/bin/listing
make_listing() {
    find_kit
    update "prove run listing listing $lister" "$lister" $(proved_of)
}

# The listing program on standard input, once it is made. Status 1 where a read or a write failed, which it says on standard error.
run_listing() {
    "$root/$lister" && return
    status=$?
    [ "$status" -eq 1 ] || stop 2 "the listing program ended with status $status"
    return 1
}

# The bytes of what tools/hex.awk writes: lines of octal escapes, which printf knows in every shell.
from_octal() { while IFS= read -r escapes; do printf "$escapes"; done; }

# Where the static library is: in the folder that GUARD_STATICLIB names, if it is set.
archive=${GUARD_STATICLIB:-target/staticlib}/libhundlezoqa_c.a

# The static library, proved, unless it is another's.
make_library() {
    if [ -n "${GUARD_STATICLIB:-}" ]; then
        [ -f "$archive" ] || stop 2 "GUARD_STATICLIB: no $archive"
        return
    fi
    find_kit
    update "prove lib hundlezoqa_c libhundlezoqa_c.a $archive" "$archive" $(proved_of)
}

# The same, over the libraries that `rt ci` leaves in a clone that had no crates/*/out before: `rt lib` would prove each of them once more.
# The crate itself is proved again, and the archive is the one that `rt lib` makes.
make_library_over_ci() (
    grep -q '^hundlezoqa_c staticlib' crates.txt || stop 2 "crates.txt has hundlezoqa_c as no static library"
    words=
    for name in $(crates_of hundlezoqa_c); do
        [ "$name" = hundlezoqa_c ] || words="$words -L dependency=../$name/out/rlib"
    done
    for name in $(sed -n 's/#.*//; s/^hundlezoqa_c[^:]*://p' crates.txt); do words="$words --extern $name=../$name/out/rlib/$name.rlib"; done
    rm -f "$archive"
    mkdir -p "${archive%/*}" && cd crates/hundlezoqa_c && "$kit/bin/rattle" build --crate-name hundlezoqa_c src/lib.rt \
        --extern "std=$kit/rlibs/std.rlib" -L "dependency=$kit/rlibs" $words --antt-project "$kit/rattle/logic/antt-project.json" \
        --logic-built "$kit/logic_built" --jobs 2 --links hundlezoqa_c= --crate-type staticlib --toolchain "$kit/toolchain" \
        --backend llvm -o "$root/$archive"
)

# make_program PACKAGE PROGRAM: a program of rust/, built for release.
make_program() { update "rebuild $1" "rust/target/release/$2" rust "$archive"; }

# Cargo goes by times, and would leave a program as it is that links an older archive: it is made to forget the packages first.
rebuild() {
    command -v cargo >/dev/null || stop 2 "cargo is not installed"
    say "building $1 (cargo)"
    package=$1
    set -- --quiet --release --offline --manifest-path rust/Cargo.toml --target-dir rust/target
    # not handed the lock, which a server that cargo starts would keep
    cargo clean "$@" -p guard -p reference -p tuned -p conformance -p workbench -p bench >&2 9<&- &&
        cargo build "$@" -p "$package" >&2 9<&-
}
