# shellcheck shell=sh
# What the program is built from, its checksum, and the build by make: read by `committees`, Makefile, `install` and
# `test`. $here is the folder of this checkout, or the one that they run in.
here=${here-.}
copy=crates/committees/out/build # a copy of the sources, which a build reads
say() { echo "committees: $*" >&2; }
fail() { say "$*"; exit 125; }
digest() { sha256sum | cut -d ' ' -f 1; }
copy_tree() { cp -Rl "$1" "$2" 2>/dev/null || cp -R "$1" "$2"; }

# Prints folder $1's lines of crates.txt on all crates below crate $2, and its own last.
lines_for() {
    awk -v top="$2" '{ sub(/ *#.*/, ""); name = $1; sub(/:.*/, "", name); line[name] = $0 }
        function visit(name,    part, n) {
            if (!(name in line) || seen[name]++) return
            for (n = split(line[name], part, " "); n > 1; n--) visit(part[n])
            print line[name]
        }
        END { visit(top) }' "$1/crates.txt"
}
names_for() { lines_for "$1" "$2" | sed 's/[ :].*//'; }

# The checksum of what the proofs of crate $2 and of those below it read in folder $1: their lines of crates.txt, their
# code, their definitions and their proofs. Times and places do not count, so a copy of a built checkout is built.
checksum() (
    cd -- "$1" || exit
    # shellcheck disable=SC2046 # no name of a crate has a blank
    set -- "$2" $(names_for . "$2" | sed 's|^|crates/|')
    { lines_for . "$1" && shift &&
        find "$@" \( -name out -o -name must-fail \) -prune -o -type f \( -name '*.rt' -o -name '*.antt' \) -print0 |
        LC_ALL=C sort -z | xargs -0 sha256sum; } | digest
)

# Waits for another build here, and copies what this one reads, so that files may change meanwhile. If a command is
# missing, the message is $1, the missing command, and $2.
begin_build() {
    for tool in rt make flock setsid; do
        command -v "$tool" >/dev/null 2>&1 || fail "$1, and the command $tool, which builds it, is not on the PATH$2"
    done
    exec 9<"$here"
    flock -n 9 || { say "waiting for another build here" && flock 9; } || true
    make=''
    trap 'end_build; exit 125' EXIT
    trap 'exit 125' HUP INT TERM
    [ -e "$here/crates.txt" ] || fail "there is no crates.txt in $here"
    rm -rf "${here:?}/$copy" && mkdir -p "$here/$copy"
    tar -C "$here" --exclude=out --exclude=must-fail -cf - Makefile crates.txt crates tools/build.sh |
        tar -C "$here/$copy" -xf - || fail "the sources cannot be copied"
}

end_build() {
    trap - EXIT HUP INT TERM
    [ -z "$make" ] || kill -- "-$make" 2>/dev/null || kill "$make" 2>/dev/null || true
    wait
    rm -rf "${here:?}/$copy"
}

# The mark of a built crate $1: its name is the checksum of what the proof read and of the kit's version. The program has
# none, since each build links it.
mark_of() { echo "crates/$1/out/rlib/$({ echo "$VERSION"; checksum "$copy" "$1"; } | digest)"; }
is_among() { case " $2 " in *" $1 "*) ;; *) return 1 ;; esac; }
stands_on() { names_for "$copy" "$1" | grep -qx "$2"; }

# Prints the crates to prove: those without a mark, and those above them, since a library serves only over the libraries
# that it was proved over.
waiting_crates() (
    cd -- "$here" || exit
    waiting=''
    for crate in $(names_for "$copy" "$TOP"); do
        [ "$crate" != "$TOP" ] && [ -e "$(mark_of "$crate")" ] || waiting="$waiting $crate"
        for lower in $waiting; do
            is_among "$crate" "$waiting" || ! stands_on "$crate" "$lower" || waiting="$waiting $crate"
        done
    done
    echo "$waiting"
)

# Has make build the program of crate $1, as the file $built, and run it with the words $2. There is a job for each
# processor for which there is memory: 2 GB. LONG is the chain of crates that takes longest.
build() {
    export here BEGAN VERSION JOBS WAITING TOP="$1" ARGS="$2" LONG='ballot_base tie_walk thiele_bounds thiele_search'
    BEGAN=$(date +%s) VERSION=$(rt version) built=$here/$copy/rooms/$1/crates/$1/out/$1
    JOBS=$(awk -v n="$(nproc)" '/^MemAv/ { m = int($2 / 2e6) } END { print(m < 1 ? 1 : m < n ? m : n) }' /proc/meminfo)
    WAITING=$(waiting_crates)
    logic=$(grep -o 'logic [0-9a-f]\{16\}' "$here/README.md" || true)
    case $VERSION in *"$logic") ;; *) say "rt version prints $VERSION, and README.md asks for $logic" ;; esac
    takes=''
    for crate in $(names_for "$here/$copy" "$1" | sed '$d'); do
        [ -d "$here/crates/$crate/out/rlib" ] ||
            takes=$(sed -n 's/.*builds the program first: \([0-9]* [a-z]*\).*/\1/p' "$here/README.md")
    done
    for crate in $WAITING; do rm -rf "${here:?}/crates/$crate/out/rlib"; done
    say "proving and building with make -j $JOBS${takes:+; a first build takes about $takes on four processors}"
    MAKEFLAGS='' setsid make -s -C "$here" -f "$copy/Makefile" -j "$JOBS" build 3>&2 >"$here/$copy/log" 2>&1 &
    make=$!
    wait "$make" 2>/dev/null || { [ -e "$here/$copy/failed" ] || fail "make: $(cat "$here/$copy/log")"; exit 125; }
}

# Builds the program in folder $1 over the crates $3 (all that this one needs), and runs it once with the words $2.
build_program() {
    folder=$(CDPATH='' cd -- "${1:?DIR is missing}" && pwd) || fail "there is no folder $1"
    name=${folder##*/}
    case $name in *[!a-z0-9_]*) fail "$name cannot be the name of a crate" ;; esac
    begin_build "$folder is not built" ""
    [ ! -e "$here/$copy/crates/$name" ] || fail "a crate here has the name of $folder"
    cp -R "$folder" "$here/$copy/crates/$name"
    rm -rf "$here/$copy/crates/$name/out"
    echo "$name: ${3:-$(names_for . vote_cli | tr '\n' ' ')}" >>"$here/$copy/crates.txt"
    build "$name" "$2"
    mkdir -p "$folder/out" && mv "$built" "$folder/out/$name"
    end_build
    say "built $folder/out/$name"
}

# Called by Makefile. Proves crate $1 if it waits. The program is linked and run as well.
build_crate() {
    is_among "$1" "$WAITING" || return 0
    report "$1" begins
    if [ "$1" = "$TOP" ]; then
        # shellcheck disable=SC2016 # the shell in the room reads $0 and $ARGS
        run_in_room "$1" sh -c 'rt run --jobs "$0" -- $ARGS || [ -x "out/$TOP" ]' "$(jobs_for "$1")"
    else
        run_in_room "$1" rt lib --jobs "$(jobs_for "$1")"
        mark=$(mark_of "$1") library=crates/$1/out/rlib
        rm -rf "$library" && mkdir -p "crates/$1/out" && mv "$copy/rooms/$1/$library" "$library"
        touch "$mark" && rm -rf "$copy/rooms/$1"
    fi
    mkdir -p "$copy/done" && touch "$copy/done/$1"
    report "$1" "is done"
}

# Prints the number of jobs for crate $1: one less for each crate that may be proved beside it. A crate of the longest
# chain has two of four at least.
jobs_for() (
    jobs=$JOBS least=1
    ! is_among "$1" "$LONG" || [ "$JOBS" -lt 4 ] || least=2
    for other in $WAITING; do
        stands_on "$1" "$other" || stands_on "$other" "$1" || jobs=$((jobs - 1))
    done
    echo $((jobs > least ? jobs : least))
)

# Says that crate $1 begins or is done, with the time since the build began and the number of crates that wait. What is
# to be seen goes to file 3.
report() {
    left=0 time=$(date -u -d "@$(($(date +%s) - BEGAN))" +%H:%M:%S)
    for waiting in $WAITING; do [ -e "$copy/done/$waiting" ] || left=$((left + 1)); done
    say "${time#00:}  $1 $2; crates left: $left" 2>&3
}

# Runs the words after $1, a crate, in copies of it and of those below, since only one rt at a time works in a folder.
# If they fail, this shows the first complaints and the end of what they printed, and ends make, which would wait.
run_in_room() {
    crate=$1 room=$copy/rooms/$1
    shift
    mkdir -p "$room/crates"
    lines_for "$copy" "$crate" >"$room/crates.txt"
    for lower in $(names_for "$copy" "$crate"); do
        copy_tree "$copy/crates/$lower" "$room/crates"
        mkdir -p "$room/crates/$lower/out"
        [ "$lower" = "$crate" ] || copy_tree "crates/$lower/out/rlib" "$room/crates/$lower/out"
    done
    (cd "$room/crates/$crate" && exec "$@") </dev/null >"$room/log" 2>&1 && return
    log=$(mktemp "${TMPDIR:-/tmp}/committees-log.XXXXXX") && cp "$room/log" "$log"
    { grep -m 5 -e '^note:' -e 'error' -e 'no proof:' "$log" || true; tail -n 20 "$log"; } >&3
    say "$crate was not proved and built; the whole output is in $log" 2>&3
    touch "$copy/failed"; kill "$PPID"; exit 1
}
