#!/bin/sh
# Builds the proved archive and the program, each where it is missing or older than its sources: sh build.sh; with --all also document
# 01's program, which the tests run. With --made it only says, by its exit status, whether archive and program are there and up to
# date. The time of a build is that of its beginning, so that a source that is changed meanwhile is newer; it is put in place after
# success only, so that a build that was ended is begun anew.
set -u
unset CDPATH
case $0 in */*) cd -- "${0%/*}/" || exit 2 ;; esac
archive=target/staticlib/libbench.a
program=cli/target/release/satskhubo
columns=target/bin/satskhubo
lock=target/build.lock
log=target/build.log
temporary=
# Neither another archive nor another place for what cargo makes.
unset BENCH_ARCHIVE CARGO_TARGET_DIR CARGO_BUILD_TARGET_DIR CARGO_BUILD_TARGET

# People read descriptor 3, where there is one to read; what shells and tools complain of goes to the log, once there is one.
(true >&2) || exec 2>/dev/null
exec 3>&2

say() {
    printf 'satskhubo: %s\n' "$*" >&3
}

fail() {
    say "$*"
    exit 2
}

# Whether nothing below the folders was changed, added or removed since the build of which the first argument has the time. What rt
# keeps in a crate's out/ is no source; that comes and goes, and so a crate's own folder does not count, but what else is in it does.
unchanged_since() {
    [ -e "$1" ] || return 1
    time=$1
    shift
    changed=$(find "$@" \( -path '*/target' -o -path 'crates/*/out' \) -prune \
        -o -type d -path 'crates/*' ! -path 'crates/*/*' -o -cnewer "$time" -print) && [ -z "$changed" ]
}

# The folders of sources in the crates, so that one that was removed is missed.
folders() {
    echo crates/*/src crates/*/specs crates/*/proofs
}

# Whether what rt built, of which the second argument has the time, the verdict and the folders, is there and up to date.
proved_made() {
    [ -f "$1" ] && unchanged_since "$2" crates crates.txt && { read -r verdict && read -r were; } <"$2" && [ "$were" = "$(folders)" ]
}

archive_made() {
    proved_made "$archive" target/archive.built
}

program_made() {
    [ -x "$program" ] && unchanged_since cli/target/program.built cli interface "$archive"
}

columns_made() {
    proved_made "$columns" target/columns.built
}

all_made() {
    archive_made && program_made && { [ "$wanted" != --all ] || columns_made; }
}

# The crates that the archive needs: bench and what it stands on.
crates_needed() {
    awk -F: '
        function need(crate,    names, count, i) {
            if (!(crate in stands_on) || crate in needed) return
            needed[crate] = 1
            total++
            count = split(stands_on[crate], names, " ")
            for (i = 1; i <= count; i++) need(names[i])
        }
        !/^#/ { split($1, words, " "); stands_on[words[1]] = $2 }
        END { need("bench"); print total + 0 }' crates.txt
}

# What rt says, kept in the log and told a line a crate that it proves, which are those that changed and those above them; the last
# line is its exit status.
progress() {
    total=$(crates_needed)
    count=0
    crate=
    while IFS= read -r line; do
        printf '%s\n' "$line" >>"$log"
        case $line in
        'crate '*': '*)
            crate=${line#crate }
            crate=${crate%%: *}
            ;;
        'logic=proved '*)
            count=$((count + 1))
            [ "$crate" != bench ] || count=$total
            printf 'proved %d of %d: %s\n' "$count" "$total" "$crate" >&3
            ;;
        'rt ended: '*) return "${line#rt ended: }" ;;
        esac
    done
    return 2
}

need_rt() {
    command -v rt >/dev/null || fail "rt, which proves and builds the library, is not on this machine. It is part of the Rattle kit (/opt/rattle; README.md says which version)"
}

# Puts what rt built in its place, and beside it the verdict that rt ended with, the folders of which it was built, and the build's time.
put() { # FROM TO BUILT
    [ -f "$1" ] || fail "rt wrote no $1: see $PWD/$log"
    mkdir -p "${2%/*}" && cp "$1" "$2.new" && mv -f "$2.new" "$2" || fail "$PWD/$2 cannot be written"
    { awk '/^logic=/ { last = $0 } END { print last }' "$log" && printf '%s\n' "$built"; } >"$3" || fail "$PWD/$3 cannot be written"
    touch -r "$lock" "$3"
}

build_archive() {
    need_rt
    if [ -f "$archive" ]; then
        say "the library is older than its sources: proving and building what has changed"
    else
        say "proving and building the library: this is done once, and takes a while"
    fi
    rm -f target/archive.built
    touch "$lock"
    built=$(folders)
    { (cd crates/bench && rt lib) </dev/null 2>&1 3>&-; echo "rt ended: $?"; } | progress || fail "the library was not built: see $PWD/$log"
    put crates/bench/out/libbench.a "$archive" target/archive.built
}

build_program() {
    command -v cargo >/dev/null || fail "cargo, which builds the program, is not on this machine. It comes with Rust; no crate is fetched"
    say "building the program"
    mkdir -p cli/target || fail "the program must be built, and $PWD/cli cannot be written"
    rm -f cli/target/program.built
    touch "$lock"
    cargo build --release --offline --manifest-path cli/Cargo.toml --target-dir cli/target >>"$log" 3>&- 9>&- ||
        fail "the program was not built: see $PWD/$log"
    [ -x "$program" ] || fail "cargo wrote no $program: see $PWD/$log"
    touch -r "$lock" cli/target/program.built
}

# Document 01's program: rt runs it once it is proved, and it must say what its file stdout has.
build_columns() {
    need_rt
    say "proving and building document 01's program"
    rm -f target/columns.built
    touch "$lock"
    built=$(folders)
    (cd crates/satskhubo && rt run -- data/sheet data/log) </dev/null >"$temporary/stdout" 2>>"$log" 3>&- 9>&- ||
        fail "document 01's program was not built: see $PWD/$log"
    cmp "$temporary/stdout" crates/satskhubo/stdout >>"$log" || fail "document 01's program says something else than crates/satskhubo/stdout: see $PWD/$log"
    put crates/satskhubo/out/satskhubo "$columns" target/columns.built
}

wanted=${1:-}
if [ "$wanted" = --made ]; then
    all_made
    exit
fi
all_made && exit 0
{ mkdir -p target && true >>"$lock"; } 2>/dev/null || fail "the program must be built, and $PWD cannot be written"
exec 9>>"$lock"
if ! flock -n 9; then
    say "waiting for another build"
    flock 9 || fail "the lock $PWD/$lock cannot be had"
fi
true >"$log" || fail "the program must be built, and $PWD/$log cannot be written"
exec 2>>"$log"
# What prover and compiler leave when they are ended goes with this folder: outside the repository, where rt ci would take it for lost files.
trap 'rm -rf "$temporary"' EXIT
trap 'exit 143' TERM
temporary=$(mktemp -d) || fail "there is no place for temporary files"
export TMPDIR="$temporary"
# Another build may have made them meanwhile.
archive_made || build_archive
program_made || build_program
[ "$wanted" != --all ] || columns_made || build_columns
