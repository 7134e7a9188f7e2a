#!/bin/sh
# What holds of the scripts and of `settle` from the shell: options, exit status, messages, one proof at a time. `quick.sh` runs it once
# `settle` is proved. Proofs are not made here: a stand-in for `rt` takes their place.
set -e
here=$(cd "$(dirname "$0")/.." && pwd)
room=$(mktemp -d)
trap 'rm -rf "$room"' EXIT
cd "$room"

fail() {
    echo "scripts.sh: $*" >&2
    exit 1
}

# Runs a command and holds its exit status; what it wrote is in `out` and `err`.
ends() { # STATUS COMMAND..
    wanted=$1
    shift
    got=0
    "$@" >out 2>err || got=$?
    [ "$got" -eq "$wanted" ] || fail "$* ended with $got and not $wanted: $(cat out err)"
}

has() { # FILE TEXT
    grep -qF -e "$2" "$1" || fail "\"$2\" is not in: $(head -c 2000 "$1")"
}

is() { # FILE TEXT
    [ "$(cat "$1")" = "$2" ] || fail "\"$2\" is not what is there: $(cat "$1")"
}

settle=$here/settle
library=$here/host/library.sh

# ---- options
for script in "$settle" "$library"; do
    ends 0 "$script" --help
    has out "usage: $(basename "$script")"
    ends 0 "$script" -h
    has out "usage: $(basename "$script")"
    ends 0 "$script" --version
    is out "imbolaverk $(sed -n 's/^version = "\(.*\)"$/\1/p' "$here/host/Cargo.toml")"
    ends 2 "$script" --no-such-option
    has err "usage: $(basename "$script")"
    ends 2 "$script" a b c
    has err "usage: $(basename "$script")"
done
ln -s "$settle" linked
printf 'fresh\n' >calls
ends 0 ./linked calls
is out ok

# ---- what settle ends with
run() { "$settle" <calls; }
to_full() { run >/dev/full; }
tell_full() { "$settle" --tell <calls >/dev/full; }
tell() { "$settle" --tell calls; }
ends 0 run
printf 'vs 300 0\nassign 0 1 0 0\nundo_last\n' >calls
ends 0 run
is out "refused 2
refused 4
refused 6"
is err ''
printf 'fresh\nfrob\nvs 1\nfresh\n' >calls
ends 1 run
is out 'ok
bad line 2: "frob" is no call, see help
bad line 3: too few words for vs K NAME
ok'
is err 'settle: 2 lines were not understood'
printf 'frob' >calls
ends 1 run
is err 'settle: 1 line was not understood'
: >calls
ends 0 run
is out ''
# A byte order mark, the line ends of another system, a comment behind a call, and the end.
printf '\357\273\277fresh # anew\r\nvs 1 1\t# one\r\n\r\n  # only this\r\nquit\r\nfrob\r\n' >calls
ends 0 run
is out 'ok
ok'
printf 'fresh\n' >calls
if [ -w /dev/full ]; then
    ends 2 to_full
    has err 'settle: the answers cannot be written'
fi
ends 2 "$settle" "$room"
has err 'is a folder'
ends 2 "$settle" no-such-file
has err 'there is no file no-such-file'
from_folder() { "$settle" <"$room"; }
ends 2 from_folder
has err 'settle: the calls cannot be read'

# ---- sentences
if command -v python3 >/dev/null 2>&1; then
    printf 'help\n' >calls
    ends 0 run
    cut -d ' ' -f 1 out | sort >listed
    python3 "$here/host/tell.py" --calls | sort >worded
    diff listed worded >&2 || fail "tell.py has words for other calls than help lists"
    printf 'name variable 4 siren-4\nassign 4 1 0 0 # too low\nhot 1\nactivity 1 1073741824\nfrob\nvalue_of 4\n' >calls
    ends 1 tell
    has out 'Line 2 is refused, 4: the level is 0 or above 2,147,483,647; nothing has changed.'
    has out 'Pack 1 has the activity 2.0.'
    has out 'Line 5 is not understood: "frob" is no call, see help.'
    has out 'Variable 4 (siren-4) is undecided.'
    if [ -w /dev/full ]; then
        ends 2 tell_full
        has err 'settle: the answers cannot be told'
    fi
    ends 0 "$settle" --tell "$here/examples/morning.script"
    diff "$here/examples/morning.told" out >&2 || fail "./settle --tell examples/morning.script does not print examples/morning.told"
else
    echo "scripts.sh: the sentences of settle --tell are skipped, there is no python3 here"
fi
# The README shows a part of them.
sed -n '/^    \$ .\/settle --tell/,/^$/s/^    //p' "$here/README.md" | sed -e 1d -e '/^\.\.$/d' -e '/^$/d' >shown
[ -s shown ] || fail "the README shows no sentences"
while IFS= read -r line; do
    grep -qxF -e "$line" "$here/examples/morning.told" || fail "the README shows what --tell does not say: $line"
done <shown

# ---- a folder of its own, with a stand-in for rt
mkdir -p copy/host copy/crates/below copy/crates/imbolaverk copy/crates/imbolaverk_c copy/crates/settle copy/include bin
cp "$settle" copy/
cp "$here/host/proving.sh" "$here/host/library.sh" "$here/host/Cargo.toml" copy/host/
printf 'below:\nbeside:\nimbolaverk: below\nimbolaverk_c staticlib: below imbolaverk\nsettle: below\n' >copy/crates.txt
printf 'a\n' >copy/crates/below/source
printf 'b\n' >copy/crates/settle/source
cat >bin/uname <<'STANDIN'
#!/bin/sh
echo x86_64
STANDIN
# It fails where another runs, takes its time, and builds a program that says nothing.
cat >bin/rt <<'STANDIN'
#!/bin/sh
[ "$1" != version ] || { echo stand-in; exit; }
echo "$*" >>"$ROOM/calls-of-rt"
mkdir "$ROOM/running" || exit 1
mkdir -p out
echo 'rt: chose --jobs 2 for below'
sleep 1
echo 'checked settle::main, 1 of 1'
sleep 2
printf '#!/bin/sh\ncat\n' >out/settle
chmod +x out/settle
: >out/libimbolaverk_c.a
rmdir "$ROOM/running"
STANDIN
chmod +x bin/uname bin/rt
: >calls-of-rt
stood_in() { ROOM=$room PATH=$room/bin:$PATH "$@"; }
proofs() { wc -l <calls-of-rt | tr -d ' '; }

# No archive for pointers of 32 bits, by name, before anything is proved.
for machine in armv7l armv8l i686 i386 riscv32 mips ppc aarch64_32 nothing; do
    ends 2 stood_in copy/host/library.sh imbolaverk "$machine"
    has err "no archive for $machine"
done
[ "$(proofs)" -eq 0 ] || fail "library.sh proved before it refused"

# Two at once: one proves, and says how far it is; the other waits, says so, and proves nothing. A third time nothing is proved.
stood_in copy/settle </dev/null >first.out 2>first.err &
first=$!
sleep 1
ends 0 stood_in copy/settle /dev/null
cp err second.err
wait "$first" || fail "the first of two at once failed: $(cat first.err)"
has first.err 'settle: the proof comes first'
has first.err 'settle: proving 1 of 2: below'
has first.err 'settle: proving 2 of 2: settle'
has second.err 'settle: another proof runs in this folder; waiting until it ends'
ends 0 stood_in copy/settle /dev/null
is err ''
[ "$(proofs)" -eq 1 ] || fail "two at once and one after them proved $(proofs) times"
# What no proof rests on is no reason for another; what one rests on is.
printf 'c\n' >copy/host/other
ends 0 stood_in copy/settle /dev/null
[ "$(proofs)" -eq 1 ] || fail "a proof was made though no source changed"
printf 'c\n' >>copy/crates/below/source
ends 0 stood_in copy/settle /dev/null
[ "$(proofs)" -eq 2 ] || fail "no proof was made though a source changed"
# The archive is proved with all that it rests on, and has its name.
ends 0 stood_in copy/host/library.sh imbolaverk
has err 'library.sh: proving 1 of 3: below'
[ -e copy/build/library/libimbolaverk.a ] || fail "library.sh wrote no libimbolaverk.a"
ends 0 stood_in copy/host/library.sh imbolaverk
is err ''
printf 'd\n' >>copy/crates/below/source
ends 0 stood_in copy/host/library.sh imbolaverk
[ "$(proofs)" -eq 4 ] || fail "the archive was proved $(($(proofs) - 2)) times and not twice, once for each state of its sources"

# ---- without the toolchain
toolchain=$(sed -n 's/^toolchain=//p' "$here/host/proving.sh")
has "$here/README.md" "$toolchain"
mkdir plain
for tool in sh dirname readlink cat uname; do ln -s "$(command -v "$tool")" plain/; done
for script in copy/settle copy/host/library.sh; do
    got=0
    PATH=$room/plain sh "$script" </dev/null >out 2>err || got=$?
    [ "$got" -eq 2 ] || fail "$script without rt ended with $got: $(cat out err)"
    has err "there is no rt here: it is the command of the Rattle toolchain, $toolchain"
done

# ---- the header, where a size_t has fewer bytes
if command -v cc >/dev/null 2>&1; then
    printf '#include "imbolaverk.h"\n' >includes.c
    cc -std=c99 -Wall -Wextra -pedantic -Werror -fsyntax-only -I"$here/include" includes.c || fail "the header does not compile"
    mkdir small
    printf 'typedef unsigned int size_t;\n' >small/stddef.h
    ! cc -std=c99 -fsyntax-only -Ismall -I"$here/include" includes.c 2>err || fail "the header takes a size_t of 4 bytes"
    has err imb_size_t_must_have_8_bytes
fi
echo "scripts.sh: options, exit status, messages and one proof at a time are as they should be"
