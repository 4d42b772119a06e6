#!/bin/sh
# Installs what lies beside this script, or takes it away again.
#   sh install.sh                          into /usr/local
#   sh install.sh --prefix ~/.local        into another folder
#   sh install.sh --uninstall              takes away what was installed there
# --destdir FOLDER puts all of it under FOLDER, for those who make packages.
set -eu

here=$(cd "$(dirname "$0")" && pwd)
prefix=/usr/local
destdir=
uninstall=no

fail() {
    echo "install.sh: $1" >&2
    exit 1
}

while [ $# -gt 0 ]; do
    case "$1" in
        --prefix) [ $# -gt 1 ] || fail "--prefix needs a folder"; prefix=$2; shift 2 ;;
        --prefix=*) prefix=${1#--prefix=}; shift ;;
        --destdir) [ $# -gt 1 ] || fail "--destdir needs a folder"; destdir=$2; shift 2 ;;
        --destdir=*) destdir=${1#--destdir=}; shift ;;
        --uninstall) uninstall=yes; shift ;;
        -h|--help) sed -n '2,6s/^# *//p' "$0"; exit 0 ;;
        *) fail "unknown word '$1': see install.sh --help" ;;
    esac
done

case "$prefix" in
    /*) ;;
    *) prefix=$(pwd)/$prefix ;;
esac
target=$destdir${prefix%/}
# The list of what was installed, each file by its place under the prefix.
list=$target/share/gco/installed

# Only folders that are empty now, and that an installation makes.
take_folders_away() {
    for folder in include/gco include lib/cmake/gco lib/cmake lib/pkgconfig lib bin \
        share/doc/gco/docs share/doc/gco/examples share/doc/gco/tools/users share/doc/gco/tools share/doc/gco share/doc \
        share/bash-completion/completions share/bash-completion share/zsh/site-functions \
        share/zsh share/fish/vendor_completions.d share/fish share/man/man1 share/man share/gco \
        share; do
        rmdir "$target/$folder" 2> /dev/null || true
    done
}

take_away() {
    [ -f "$list" ] || fail "nothing of gco is installed in $target (there is no $list)"
    while IFS= read -r file; do
        case "$file" in
            ""|/*|*..*) fail "$list has a line that is no place of gco: '$file'" ;;
        esac
        rm -f "$target/$file"
    done < "$list"
    rm -f "$list"
    take_folders_away
    echo "gco was taken away from $target"
}

# The files of this folder that belong under a prefix.
files() {
    (cd "$here" && find bin include lib share \( -type f -o -type l \) | LC_ALL=C sort)
}

put() {
    [ -x "$here/bin/gco" ] \
        || fail "there is no bin/gco beside this script: unpack the whole archive"
    mkdir -p "$target" 2> /dev/null && [ -w "$target" ] \
        || fail "$target cannot be written: use sudo, or --prefix with a folder of your own"
    if [ -f "$list" ]; then
        take_away > /dev/null
    fi
    mkdir -p "$target/share/gco"
    files > "$list"
    cp -RPf "$here/bin" "$here/include" "$here/lib" "$here/share" "$target"
    echo "gco $(cat "$here/VERSION") was installed in $target"
    tell_path
}

# What is left to do: the program on the path, the library where the loader looks.
tell_path() {
    [ -z "$destdir" ] || return 0
    case ":$PATH:" in
        *":$target/bin:"*) ;;
        *) echo "put it on the path: export PATH=\"$target/bin:\$PATH\"" ;;
    esac
    case "$target" in
        /usr|/usr/local) [ "$(id -u)" != 0 ] || ! command -v ldconfig > /dev/null || ldconfig ;;
    esac
}

if [ "$uninstall" = yes ]; then
    take_away
else
    put
fi
