#!/bin/sh
# Puts program, header, archive and man page below a folder, for machines that have no prover: sh install.sh PREFIX. What is missing
# or older than its sources is built first, as ./satskhubo does it.
set -u
usage='usage: sh install.sh PREFIX (for example /usr/local)'

fail() {
    printf 'install.sh: %s\n' "$*" >&2
    exit 2
}

case $# in
1) ;;
*) fail "$usage" ;;
esac
case $1 in
'' | -*) fail "$usage" ;;
esac
prefix=$1
home=$(readlink -f -- "$0" && echo .) || exit 2
home=${home%?.}
home=${home%/*}
new=
trap '[ -z "$new" ] || rm -f -- "$new"' EXIT
trap 'exit 130' INT
trap 'exit 143' TERM

# One file: whole under another name first, so that a program in use is replaced and never half written.
put() { # MODE FROM FOLDER
    to=$prefix/$3/${2##*/}
    mkdir -p -- "$prefix/$3" || fail "$prefix/$3 cannot be made"
    new=$to.new
    { cp -- "$home/$2" "$new" && chmod "$1" "$new" && mv -f -- "$new" "$to"; } || fail "$to cannot be written"
    new=
    printf '%s\n' "$to"
}

version=$("$home/satskhubo" --version) || fail "the program was not built, and nothing is installed"
printf '%s\n' "$version"
put 755 cli/target/release/satskhubo bin
put 644 include/satskhubo.h include
put 644 target/staticlib/libbench.a lib
put 644 docs/satskhubo.1 share/man/man1
