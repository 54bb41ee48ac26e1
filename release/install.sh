#!/bin/sh
# Installs the programs, the C library, the man pages and the completions of the archive beside it, or removes them.
#
#     sh install.sh [PREFIX]              installs below PREFIX, which is /usr/local if it is left out
#     sh install.sh --remove [PREFIX]     removes what PREFIX/share/lumpedris-cmph/installed lists
#
# DESTDIR goes before PREFIX, as for `make install`. All files are put beside their places first, and renamed then: if it fails or is interrupted, what was
# there before is whole, and nothing else is left. It needs coreutils and tar, and xz or Python 3.
set -eu
umask 022
export LC_ALL=C

own="share/lumpedris-cmph"   # below PREFIX: the list of what is installed, and a copy of this script
beside=".lumpedris-new"      # after the name of a file that is not renamed yet
state="nothing is installed" # what is so if this ends now
advice="; name a folder of your own, as in: sh install.sh ~/.local"
scratch=""                   # a temporary folder
new=""                       # files that are put beside their places, a line each
made=""                      # folders that were made, the innermost first

fail() {
    printf 'install.sh: %s\n' "$*" >&2
    exit 1
}

# Runs a command, and fails with the first line that it prints.
try() {
    why=$("$@" 2>&1) && return
    why=${why%%"
"*}
    case $why in
    *"Permission denied"* | *"Read-only file system"*) fail "$state: $why$advice" ;;
    *) fail "$state: $why" ;;
    esac
}

# Calls a function with each line of a text.
each() {
    while IFS= read -r line; do
        [ -z "$line" ] || "$1" "$line"
    done <<LINES
$2
LINES
}

# Takes away whatever is not whole.
leave() {
    trap '' HUP INT TERM
    each drop_new "$new"
    each drop_folder "$made"
    [ -z "$scratch" ] || rm -rf "$scratch"
}
drop_new() { rm -f "$1$beside"; }
drop_folder() { rmdir "$1" 2>/dev/null || true; }

# Fails if a file of a folder is not the one that its SHA256SUMS names.
check_sums() {
    [ -e "$1/SHA256SUMS" ] || fail "$state: there is no $1/SHA256SUMS"
    said=$(cd "$1" && sha256sum --check --strict --quiet SHA256SUMS 2>/dev/null) && return
    said=$1/${said%%: FAILED*}
    [ -e "$said" ] || fail "$state: $said is missing"
    fail "$state: $said was changed: its sum is not that of $1/SHA256SUMS"
}

name_of_archive() {
    while read -r _ name; do
        case $name in *.tar.xz) printf '%s\n' "$name" && return ;; esac
    done <"$here/SHA256SUMS"
    fail "$state: $here/SHA256SUMS names no archive"
}

decompress() {
    if command -v xz >/dev/null; then
        xz -dc "$1" >"$2"
    elif command -v python3 >/dev/null; then
        python3 -c 'import lzma, shutil, sys; shutil.copyfileobj(lzma.open(sys.argv[1]), sys.stdout.buffer)' "$1" >"$2"
    else
        echo "there is no xz on the path, which unpacks the archive (nor python3, which can, too)"
        return 1
    fi
}

# Unpacks the archive into a temporary folder, and checks each file of it.
unpack() {
    scratch=$(mktemp -d) || fail "$state: no temporary folder can be made"
    packed=$(name_of_archive)
    try decompress "$here/$packed" "$scratch/tar"
    try tar -x --no-same-owner -f "$scratch/tar" -C "$scratch"
    tree="$scratch/${packed%.tar.xz}"
    check_sums "$tree"
    files=""
    while read -r _ name; do
        files="$files$name
"
    done <"$tree/SHA256SUMS"
}

# Makes a folder and those above it.
make_folder() {
    [ ! -d "$1" ] || return 0
    make_folder "$(dirname "$1")"
    try mkdir "$1"
    made="$1
$made"
}
make_folder_of() { make_folder "$(dirname "$to/$1")"; }

# Puts a file of the tree beside its place.
put() {
    [ ! -d "$to/$1" ] || fail "$state: $to/$1 is a folder"
    case $1 in bin/* | *.so.*) mode=755 ;; *) mode=644 ;; esac
    new="$new$to/$1
"
    try install -m "$mode" "$tree/$1" "$to/$1$beside"
}

# Starts a program, to see whether it can be.
start() {
    why=$("$1" -V 2>&1) && return
    echo "the programs do not start here: they need the GNU C library, 2.34 or later: $why"
    return 1
}

# Renames a file to its place.
settle() { try mv -f "$1$beside" "$1"; }

# The prefix in the file for pkg-config.
set_prefix() {
    pc="$tree/lib/pkgconfig/cmph_c.pc"
    text=""
    while IFS= read -r line; do
        case $line in prefix=*) line="prefix=$prefix" ;; esac
        text="$text$line
"
    done <"$pc"
    printf %s "$text" >"$pc"
}

# Writes the list of what is installed: files, and after them the folders that were made, by lines that end with `/`, the innermost first. `./` is PREFIX, and
# `../` the folder around it. Folders that an earlier installation made are still ours.
write_list() {
    list="${files}lib/libcmph_c.so
"
    each list_folder "$made"
    each list_older_folder "$older"
    printf %s "$list" >"$tree/$own/installed"
}
list_folder() {
    around=$to name=./
    case $1 in
    "$to"/*) name=${1#"$to"/}/ ;;
    *) while [ "$around" != "$1" ]; do around=${around%/*} name=../${name#./}; done ;;
    esac
    list="$list$name
"
}
list_older_folder() {
    case $1 in */) list="$list$1
" ;; esac
}

# Removes a file of an earlier installation that this one does not have.
drop_older() {
    case $1 in */) return 0 ;; esac
    case "
$list" in *"
$1
"*) ;; *) rm -f "$to/$1" ;; esac
}

# Counts a file by its kind.
count() {
    case $1 in
    */) ;;
    bin/*) programs=$((programs + 1)) ;;
    lib/* | include/*) library=$((library + 1)) ;;
    share/man/*) pages=$((pages + 1)) ;;
    share/bash-completion/* | share/zsh/*) completions=$((completions + 1)) ;;
    esac
}

report() {
    programs=0 library=0 pages=0 completions=0
    each count "$list"
    echo "installed below $to: $programs programs, the C library ($library files), $pages man pages and $completions completions for bash and zsh"
    case ":$PATH:" in
    *":$prefix/bin:"*) ;;
    *) [ -n "$root" ] || printf '%s\n' "$prefix/bin is not on the path; add this line to ~/.profile:" "    export PATH=\"$prefix/bin:\$PATH\"" ;;
    esac
    printf '%s\n' "to remove it: sh $to/$own/install.sh --remove"
}

install_all() {
    check_sums "$here"
    unpack
    older=$(cat "$to/$own/installed" 2>/dev/null || true)
    cp "$0" "$tree/$own/install.sh"
    files="$files$own/install.sh
$own/installed
"
    each make_folder_of "$files"
    set_prefix
    write_list
    each put "$files"
    [ -n "$root" ] || try start "$to/bin/cmph$beside"
    new="$new$to/lib/libcmph_c.so
"
    try ln -sf libcmph_c.so.1 "$to/lib/libcmph_c.so$beside"
    trap '' HUP INT TERM
    state="only a part is installed"
    each settle "$new"
    new="" made=""
    each drop_older "$older"
    report
}

remove_all() {
    state="not all is removed" advice=""
    [ -e "$to/$own/installed" ] || fail "nothing to remove: there is no $to/$own/installed"
    list=$(cat "$to/$own/installed")
    each remove_file "$list"
    try rm -f "$to/$own/installed"
    each remove_folder "$list"
    echo "removed what was installed below $to"
}
remove_file() {
    case $1 in */ | "$own/installed") ;; *) try rm -f "$to/$1" ;; esac
}
remove_folder() {
    around=$to name=$1
    while [ "${name#../}" != "$name" ]; do around=${around%/*} name=${name#../}; done
    case $1 in
    ./ | ../*) drop_folder "$around" ;;
    */) drop_folder "$to/${1%/}" ;;
    esac
}

here=$(CDPATH='' cd -- "$(dirname -- "$0")" && pwd)
act=install_all
if [ "${1:-}" = --remove ]; then
    act=remove_all
    shift
fi
case $#${1:-} in
0 | 1[!-]*) ;;
*)
    echo "usage: sh install.sh [--remove] [PREFIX]" >&2
    exit 2
    ;;
esac
usual=/usr/local
[ ! -e "$here/installed" ] || usual=${here%/"$own"}
prefix=${1:-$usual}
case $prefix in /*) ;; *) prefix=$PWD/$prefix ;; esac
prefix=${prefix%/}
root=${DESTDIR:-}
root=${root%/}
to=$root$prefix
trap leave EXIT
trap 'exit 129' HUP
trap 'exit 130' INT
trap 'exit 143' TERM
[ "$(uname -sm)" = "Linux x86_64" ] || fail "$state: this is $(uname -sm), and the programs are for Linux on x86-64"
$act
