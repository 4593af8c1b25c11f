# shellcheck shell=bash
# For tests of the scripts ./qccd, ./qccd-try and tools/build: a small repository of five crates in a new folder, with
# these scripts, and a stand-in for `rt` that only sleeps, writes what it is asked and makes a program that prints its
# words. Nothing is proved. A test reads this with `.` at the top of the repository, and ends with `finish`.
set -u

folder=$(readlink -f "$(mktemp -d)") || exit 1
trap 'rm -rf "$folder"' EXIT
repository="$folder/a repository"
asked=$folder/asked # a line for each call of the stand-in: the crate, where (copy or checkout), and the words
failed=0
# A place of the tests' own for the copies, so that one can see what is left.
export ASKED=$asked TMPDIR=$folder/temporary
mkdir "$TMPDIR"
: >"$asked"

# The program stands on left and right, and these on low; nothing of the program stands on unused.
make_repository() {
    local crate
    mkdir -p "$repository/tools" "$repository/examples" "$folder/bin"
    cp qccd qccd-try "$repository/"
    cp tools/shared.sh tools/build "$repository/tools/"
    cp examples/bell.qasm "$repository/examples/"
    printf '%s\n' '# In no order.' 'qccd: left right' 'low: itoa' 'left: low' 'unused: low' 'right: itoa low # the wider' >"$repository/crates.txt"
    echo 'Handles allowed: none.' >"$repository/HANDLES"
    for crate in low left right unused qccd; do
        mkdir -p "$repository/crates/$crate/src" "$repository/crates/$crate/specs" "$repository/crates/$crate/proofs/f"
        echo "// $crate" >"$repository/crates/$crate/src/lib.rt"
        echo "-- $crate" >"$repository/crates/$crate/specs/Lib.antt"
        echo "-- $crate" >"$repository/crates/$crate/proofs/f/Proof.antt"
    done
    # The way to the program through right is longer.
    printf '// %s\n' a b c d >"$repository/crates/right/src/more.rt"
    mkdir -p "$repository/crates/qccd_messages/src"
    cp crates/qccd_messages/src/refusal.rt "$repository/crates/qccd_messages/src/"
    cat >"$folder/bin/rt" <<'END'
#!/usr/bin/env bash
crate=$(basename "$PWD")
case $PWD in
    */qccd-build.*) place=copy ;;
    *) place=checkout ;;
esac
echo "$crate $place $1" >>"$ASKED"
if [ "$crate" = "${FAILS-}" ]; then
    echo "error: ${WHY-no proof}"
    exit 1
fi
[ $place = checkout ] || sleep "${NAP-0}"
if [ "$1" = run ]; then
    mkdir -p out
    printf '#!/bin/sh\necho "program: $*"\nexit 7\n' >out/qccd
    chmod +x out/qccd
fi
END
    chmod +x "$folder/bin/rt"
}

# Takes away what a build left.
forget() {
    rm -rf "$repository"/crates/*/out
    : >"$asked"
}

# Runs a command with the stand-in, and keeps what it writes and its status.
call() {
    PATH=$folder/bin:$PATH "$@" >"$folder/stdout" 2>"$folder/stderr" </dev/null
    # shellcheck disable=SC2034  # read by the tests
    status=$?
}

# Compares a status, a text or a number with the one that is wanted.
expect() {
    if [ "$2" != "$3" ]; then
        printf '%s:\n--- wanted\n%s\n--- found\n%s\n' "$1" "$2" "$3"
        failed=1
    fi
}

# Whether a file has a line.
expect_line() {
    grep -qxF -e "$1" "$2" || {
        printf 'no line %s in:\n' "$1"
        cat "$2"
        failed=1
    }
}

finish() {
    exit "$failed"
}

make_repository
