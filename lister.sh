# What ./list-cards and ./list-archive-cards share: each sets these, and this does the rest.
#   name     its own, which stands in front of what it says
#   program  the crate that lists its cards
#   cards    what --help says of them
#   here     the folder that all three stand in
help() {
    cat <<END
$name FILE.., or $name < FILE: lists $cards
A refused card is the line \`refused N\`, and bytes that are left at the end of a file are \`refused 50\`.
Of several files the header stands once, and the cards of each follow in turn: every file begins with a card.
The first run proves and builds the lister, once, which takes two or three minutes and needs the Rattle toolchain (rt on the path).
Status 0: all was listed, refused cards too. 1: something could not be read, written or built, and standard error says what. 2: no such option.
END
}

fail() {
    printf '%s: %s\n' "$name" "$1" >&2
    exit "${2:-1}"
}

# What the program says on standard error is a failure. A reader that has gone away ends it without a word, with a status of its own.
judge() {
    status=$?
    [ -z "$said" ] || fail "${1:+$1: }$said"
    [ "$status" -eq 0 ] || exit "$status"
}

{ true 3>&1; } 2>/dev/null || fail 'standard output is closed'
for file; do
    case $file in
    --help) help && exit 0 || exit 1 ;;
    -*) fail "no such option: $file (a file of that name is ./$file)" 2 ;;
    esac
done
for file; do
    [ -e "$file" ] || fail "$file: no such file"
    [ ! -d "$file" ] || fail "$file: is a directory"
    [ -r "$file" ] || fail "$file: may not be read"
done

command -v rt >/dev/null || fail 'the Rattle toolchain is not there (no rt on the path)'
made=$here/crates/$program/out/$program
if [ ! -x "$made" ]; then
    echo "$name: proving and building the lister, once: this takes two or three minutes" >&2
    # Where only the program is gone, its stamp would keep it from being linked again.
    rm -f "$made.stamp"
fi
# Builds what has changed, and runs it once on no input.
said=$(cd "$here/crates/$program" && rt run 2>&1 </dev/null) || fail "$said"

list() {
    "$made" 3>&-
}

exec 3>&1
if [ $# -eq 0 ]; then
    said=$(list 2>&1 >&3)
    judge
    exit 0
fi
said=$(list <"$1" 2>&1 >&3)
judge "$1"
shift
for file; do
    said=$({ list <"$file" | tail -n +2 >&3; } 2>&1)
    judge "$file"
done
