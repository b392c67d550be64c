#!/bin/sh
# The static library that the repository has, and the one that tools/staticlib.sh built from the proved crates.
#
# Usage: tools/prebuilt.sh check     fails unless the two are the same byte for byte, and prebuilt/SHA256SUMS tells the
#                                    library's hash, the tree hash of crates/ and the kit as they are
#        tools/prebuilt.sh update    takes over the one that was built, and writes prebuilt/SHA256SUMS
cd "$(dirname "$0")/.." || exit 1
built=target/staticlib/libmigthumo.a
target=x86_64-linux
kept=prebuilt/$target/libmigthumo.a

# The tree hash of crates/ as the files stand: on a clean checkout `git rev-parse HEAD:crates` prints the same.
crates_tree() {
    room=$(mktemp -d) || return 1
    GIT_INDEX_FILE=$room/index git add crates && GIT_INDEX_FILE=$room/index git write-tree --prefix=crates/
    status=$?
    rm -rf "$room"
    return $status
}

# The lines of prebuilt/SHA256SUMS; sha256sum passes over those that begin with #.
tree_line() {
    echo "# built from crates/ with the tree hash (git rev-parse HEAD:crates) $1"
}

kit_line() {
    echo "# proved and compiled with the kit (rt version) $(rt version)"
}

# Fails with one line.
fail() {
    echo "DIFFERENT: $1"
    exit 1
}

# Fails unless prebuilt/SHA256SUMS has the line.
has() {
    grep -qxF -e "$1" prebuilt/SHA256SUMS || fail "prebuilt/SHA256SUMS is to have the line: $1"
}

case $1 in
check)
    [ -f "$built" ] || fail "there is no $built: tools/staticlib.sh builds it"
    cmp "$built" "$kept" || fail "$kept is not the library that the proved crates give; tools/prebuilt.sh update takes that over"
    (cd prebuilt && sha256sum --quiet --strict -c SHA256SUMS) || fail "prebuilt/SHA256SUMS has another hash"
    has "$(kit_line)"
    if tree=$(crates_tree 2>/dev/null); then
        has "$(tree_line "$tree")"
    else
        echo "the tree hash of crates/ was not compared: git can't be asked for it here"
    fi
    echo "$kept is the library that the proved crates give, byte for byte: $(wc -c <"$kept") bytes, sha256 $(sha256sum <"$kept" | cut -c 1-64)"
    ;;
update)
    tree=$(crates_tree) || fail "git can't be asked for the tree hash of crates/"
    mkdir -p "prebuilt/$target" && cp "$built" "$kept" || exit 1
    {
        tree_line "$tree"
        kit_line
        (cd prebuilt && sha256sum "$target/libmigthumo.a")
    } >prebuilt/SHA256SUMS
    ;;
*)
    sed -n '2,/^cd/p' "$0" | sed '$d; s/^# \{0,1\}//'
    exit 2
    ;;
esac
