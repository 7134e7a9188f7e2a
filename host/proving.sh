# What the scripts that prove have in common. A script sources it with `here`, the repository's root, `me`, its own name, and `first_time`,
# how long its first proof takes.
#
# What stays lies in build/, beside the crates' out/, which is the toolchain's: what was built, each with a stamp of the sources that it was
# proved from, and the lock that lets one proof run at a time.

# The toolchain, as `rt version` names it.
toolchain=rattle-kit-13f

say() { printf '%s: %s\n' "$me" "$*" >&2; }

die() {
    say "$@"
    exit 2
}

version() { sed -n 's/^version = "\(.*\)"$/imbolaverk \1/p' "$here/host/Cargo.toml"; }

need_rt() {
    command -v rt >/dev/null 2>&1 || die "there is no rt here: it is the command of the Rattle toolchain, $toolchain; put it on the PATH"
}

# The crates that a crate's proof rests on, itself last, in the order in which `rt` proves them: those that rest on none first.
crates_of() { # NAME
    awk -v wanted="$1" '
        function visit(name,    i, count, need, level) {
            count = split(needs[name], need, " ")
            for (i = 1; i <= count; i++) {
                if (!(need[i] in needs)) continue
                if (!(need[i] in levels)) visit(need[i])
                if (levels[need[i]] >= level) level = levels[need[i]] + 1
            }
            levels[name] = level + 0
            print levels[name], name
        }
        { sub(/#.*/, "") }
        split($0, part, ":") == 2 { split(part[1], word, " "); needs[word[1]] = part[2] }
        END { visit(wanted) }' "$here/crates.txt" | sort -s -n -k 1,1 | cut -d ' ' -f 2
}

# One line for the sources of a crate and of all that it rests on, and for the toolchain.
stamp_of() { # NAME
    {
        rt version
        cat "$here/crates.txt"
        for crate in $(crates_of "$1"); do
            (cd "$here/crates/$crate" && find . \( -path ./must-fail -o -path ./out \) -prune -o -type f -exec sha256sum {} + | sort -k 2)
        done
    } | sha256sum
}

is_current() { # FILE STAMP
    [ -e "$1" ] && [ "$(cat "$1.stamp" 2>/dev/null)" = "$2" ]
}

# Copies a file so that its place never holds a part of it.
put() { # FILE PLACE
    mkdir -p "$(dirname "$2")"
    cp "$1" "$2.new"
    mv "$2.new" "$2"
}

# Puts what was built where it stays, and the stamp last.
keep() { # BUILT KEPT STAMP
    rm -f "$2.stamp"
    put "$1" "$2"
    printf '%s\n' "$3" >"$2.stamp"
}

# Two proofs in one folder would spoil each other's files.
begin_proving() {
    mkdir -p "$here/build"
    exec 9>"$here/build/proving"
    if ! command -v flock >/dev/null 2>&1; then
        say "there is no flock here, so see that no other proof runs in this folder"
    elif ! flock -n 9; then
        say "another proof runs in this folder; waiting until it ends"
        flock 9
    fi
}

end_proving() { exec 9>&-; }

# Says of each crate when its proof begins, until it is stopped or the script is gone: the log has a line then. One that is unchanged is
# not proved again, and nothing is said of it.
tell_begun() { # LOG CRATE..
    said=$1
    shift
    told=' '
    while kill -0 $$ 2>/dev/null; do
        i=0
        for crate in "$@"; do
            i=$((i + 1))
            case $told in *" $crate "*) continue ;; esac
            grep -qE "^(rt: chose --jobs [0-9]+ for $crate$|checked $crate::)" "$said" 2>/dev/null || continue
            told="$told$crate "
            say "proving $i of $#: $crate"
        done
        sleep 1 >/dev/null 2>&1
    done
}

# Runs a command in a crate's folder that proves it, and says how far it is. What the command said is shown where it fails.
prove() { # CRATE COMMAND..
    crate=$1
    shift
    log=$here/build/$crate.log
    [ -d "$here/crates/$crate/out" ] || say "the proof comes first; the first time it takes $first_time"
    : >"$log"
    # shellcheck disable=SC2046
    tell_begun "$log" $(crates_of "$crate") 9>&- &
    teller=$!
    ended=0
    (cd "$here/crates/$crate" && "$@") >"$log" 2>&1 </dev/null || ended=$?
    kill "$teller" 2>/dev/null || :
    wait "$teller" 2>/dev/null || :
    [ "$ended" -eq 0 ] && return
    tail -n 60 "$log" >&2
    die "$crate is not proved; build/$crate.log has all that was said"
}
