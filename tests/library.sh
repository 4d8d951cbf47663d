# Read, at the repository's root, by scripts that link the library: `rt lib` proves and builds it where something has changed, and
# else leaves it. What cannot be proved is not linked: the end of the log goes to standard error, status 1.
library=crates/chips69000/out/libchips69000.a
mkdir -p target
if ! (cd crates/chips69000 && exec rt lib) </dev/null >target/library.log 2>&1; then
    echo "$0: the library is not proved; the end of the log:" >&2
    tail -n 20 target/library.log >&2
    exit 1
fi
