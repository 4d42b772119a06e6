#!/bin/sh
# Makes the Debian package of the tree of a release:
#   VERSION=1.0.0 PYTHON=python3 sh release/make_deb.sh TREE gco_1.0.0_amd64.deb
set -eu

stage=$1
package=$2
arch=${package##*_}
arch=${arch%.deb}
root=$(mktemp -d)
trap 'rm -rf "$root"' EXIT
modules=$root/usr/lib/python3/dist-packages
chmod 755 "$root"

put_changelog() {
    {
        printf 'gco (%s) stable; urgency=low\n\n' "$VERSION"
        printf '  * RELEASE.md says of which sources it was built.\n\n'
        printf -- ' -- %s  %s\n' "$(sed -n 's/^Maintainer: //p' release/control.in)" \
            "$(git log -1 --format=%cD)"
    } | gzip -9n > "$root/usr/share/doc/gco/changelog.gz"
}

put_tree() {
    mkdir -p "$root/usr"
    for folder in bin include lib share; do
        cp -a "$stage/$folder" "$root/usr"
    done
    chmod 644 "$root"/usr/lib/libgco*.so*
    mv "$root/usr/share/zsh/site-functions" "$root/usr/share/zsh/vendor-completions"
    gzip -9n "$root"/usr/share/man/man1/*.1
    cp release/copyright "$root/usr/share/doc/gco/copyright"
    cp "$stage/RELEASE.md" "$root/usr/share/doc/gco"
    put_changelog
}

# The wheel's module, which shares the package's libraries.
put_module() {
    mkdir -p "$modules"
    $PYTHON -m zipfile -e "$stage"/python/*.whl "$modules"
    for copy in "$modules"/*/libgco*.so; do
        ln -sf "../../../$(basename "$copy")" "$copy"
    done
    chmod -R u=rwX,go=rX "$modules"
    rm -f "$modules"/*.dist-info/RECORD
}

# The commands that the wheel names, as `pip install` would make them.
put_commands() {
    entries=$(echo "$modules"/*.dist-info/entry_points.txt)
    [ -f "$entries" ] || return 0
    sed -n 's/^ *\([A-Za-z0-9_-]*\) *= *\([a-z_.]*\):\([a-z_]*\) *$/\1 \2 \3/p' "$entries" \
        | while read -r command module call; do
        printf '#!/usr/bin/python3\nimport sys\n\nfrom %s import %s as call\n\nsys.exit(call())\n' \
            "$module" "$call" > "$root/usr/bin/$command"
        chmod 755 "$root/usr/bin/$command"
    done
}

put_control() {
    mkdir -p "$root/DEBIAN"
    size=$(du -sk "$root/usr" | cut -f1)
    glibc=$(sed -n 's/.*with glibc \([0-9.]*\) or later.*/\1/p' "$stage/RELEASE.md")
    sed -e "s|@VERSION@|$VERSION|" -e "s|@ARCH@|$arch|" -e "s|@SIZE@|$size|" -e "s|@GLIBC@|$glibc|" \
        release/control.in > "$root/DEBIAN/control"
    echo "activate-noawait ldconfig" > "$root/DEBIAN/triggers"
    install -m 755 release/prerm "$root/DEBIAN/prerm"
    (cd "$root" && find usr -type f | LC_ALL=C sort | xargs md5sum > DEBIAN/md5sums)
}

put_tree
put_module
put_commands
put_control
SOURCE_DATE_EPOCH=$(git log -1 --format=%ct)
export SOURCE_DATE_EPOCH
dpkg-deb --root-owner-group --build "$root" "$package" > /dev/null
