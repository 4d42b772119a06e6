#!/bin/sh
# Lays out the tree of the release in a folder that has the library already (include, lib):
#   VERSION=1.0.0 GCO=crates/gco/out/gco RUN=crates/gco/out/gco DEB=gco_1.0.0_amd64.deb OBJDUMP=objdump \
#       MACHINE=x86-64 TRIED='`make check`' GATE_LOG= PYTHON=python3 sh release/stage.sh FOLDER
# RUN runs the program here.
set -eu

stage=$1
date=$(git log -1 --format=%cs)
commit=$(git rev-parse HEAD)
[ -z "$(git status --porcelain --untracked-files=no)" ] || commit="$commit, with changes"

# The newest symbols of the C library that the program and the libraries ask for.
glibc_wanted() {
    $OBJDUMP -T "$stage/bin/gco" "$stage/lib/libgco.so" "$stage/lib/libgco_pictures.so" \
        | sed -n 's/.*GLIBC_\([0-9][0-9.]*\).*/\1/p' | sort -Vu | tail -1
}

# The last line of the gate's log, or that there is none. Another last line is no answer of a gate.
gate_said() {
    if [ -z "$GATE_LOG" ]; then
        echo "not run for this release"
    elif tail -n 1 "$GATE_LOG" | grep -Eq '[0-9]+ passed, [0-9]+ failed'; then
        tail -n 1 "$GATE_LOG"
    else
        echo "$GATE_LOG does not end with a line 'N passed, M failed': run rt ci to its end" >&2
        exit 1
    fi
}

# The kit that stands on the path, by its own words.
kit_name() {
    if command -v rt > /dev/null 2>&1; then
        rt version
    else
        echo "the kit that docs/PROVED.md names"
    fi
}

put_program() {
    install -D -m 755 "$GCO" "$stage/bin/gco"
    $PYTHON tools/release/make_manuals.py --gco "$RUN" --version "$VERSION" --date "$date" \
        "$stage/share/man/man1"
    completions=$(mktemp -d)
    $PYTHON tools/release/make_completions.py --gco "$RUN" "$completions"
    install -D -m 644 "$completions/gco.bash" "$stage/share/bash-completion/completions/gco"
    install -D -m 644 "$completions/_gco" "$stage/share/zsh/site-functions/_gco"
    install -D -m 644 "$completions/gco.fish" "$stage/share/fish/vendor_completions.d/gco.fish"
    rm -r "$completions"
}

put_pages() {
    doc=$stage/share/doc/gco
    mkdir -p "$doc/docs" "$doc/examples" "$doc/tools/users"
    cp README.md CONTRIBUTING.md CHANGELOG.md SECURITY.md CITATION.cff "$doc"
    cp LICENSE-MIT LICENSE-APACHE "$doc"
    cp docs/* "$doc/docs"
    cp examples/* "$doc/examples"
    # The page for a browser, if `make web` made it: here, and on top of the archive.
    [ ! -f dist/gco.html ] || cp dist/gco.html "$doc"
    [ ! -f dist/gco.html ] || cp dist/gco.html "$stage"
    # What the pages have a user run.
    cp tools/users/where_time_goes.py tools/users/picture_energy.py tools/users/show_assignment.py \
        "$doc/tools/users"
}

put_top() {
    mkdir -p "$stage/python"
    cp bindings/dist/gco*-"$VERSION"-*.whl "$stage/python"
    cp LICENSE-MIT LICENSE-APACHE VERSION release/install.sh "$stage"
    sed -e "s|@VERSION@|$VERSION|g" -e "s|@COMMIT@|$commit|" -e "s|@DATE@|$date|" \
        -e "s|@KIT@|$(kit_name)|" -e "s|@MACHINE@|$MACHINE|g" -e "s|@TRIED@|$TRIED|" \
        -e "s|@DEB@|$DEB|" \
        -e "s|@GATE@|$gate|" -e "s|@GLIBC@|$(glibc_wanted)|" \
        -e "s|@WHEEL@|$(cd "$stage" && echo python/*.whl)|" \
        release/RELEASE.md.in > "$stage/RELEASE.md"
}

put_sums() {
    cd "$stage"
    find * -type f ! -name SHA256SUMS | LC_ALL=C sort | xargs sha256sum > SHA256SUMS
}

gate=$(gate_said)
put_program
put_pages
put_top
chmod -R u=rwX,go=rX "$stage"
put_sums
