# shellcheck shell=sh disable=SC2154
# Shared by ./run, bindings/build, bindings/wasm/build and tools/build: the one lock, the time that it takes, the lines of progress, and what rt proves
# and builds, which they keep in target/, this repository's own folder. They source it in the repository's root, in sh or bash, with `who` set to the
# word before their messages. rt itself works in crates/NAME/out.

# Programs and archive are for every x86-64; left to itself, rt builds for x86-64-v2.
cpu=x86-64

# Waits until no other process proves and builds in this checkout, if flock is installed. The lock ends with the process that took it.
lock() {
    command -v flock >/dev/null || return 0
    exec 9<crates
    flock -n 9 || { echo "$who: another process proves and builds here; this one waits for it" >&2 && flock 9; }
}

# Whether rt has built no library here yet.
is_first() {
    for stamp in crates/*/out/rlib/stamp; do
        if [ -e "$stamp" ]; then return 1; fi
    done
}

# How long a first build takes: rt proves one crate after the other. Measured on 26 November 2026 on four processors with other work: 9 minutes of
# processor time.
about() {
    echo 'about eight minutes'
}

# estimate CRATE: prints what is proved and built now, and how long that takes.
estimate() {
    all=$(bindings/sources --crates "$1" | grep -c .)
    if is_first; then
        echo "$who: the engine is proved and built first: $all crates, $(about)" >&2
    else
        echo "$who: what has changed of the engine's $all crates is proved and built first, $(about) at most" >&2
    fi
}

# progress CRATE LOG: reads rt's lines, adds them to LOG, and prints one for each crate as it is proved: rt says nothing of those that have not changed.
progress() {
    all=$(bindings/sources --crates "$1" | grep -c .)
    count=0 now=$1
    while IFS= read -r line; do
        printf '%s\n' "$line" >>"$2"
        case $line in
        "rt: chose --jobs "*" for "*) now=${line##* for } ;;
        "logic=proved "*)
            count=$((count + 1))
            echo "$who: crate $count of at most $all: $now proved" >&2
            ;;
        esac
    done
}

# prove CRATE LOG [LEADER]: proves and builds a program, which rt also runs once on nothing, or a library, with progress. It fails, with rt's lines on
# standard error, if the crate is not proved. LEADER starts rt: setsid gives it its own process group, whose number is in LOG.group, so that it can be
# ended with everything that it has started.
prove() {
    rm -f "$2.failed"
    : >"$2"
    {
        if [ -e "crates/$1/src/main.rt" ]; then
            # rt's lines come on standard error, the program's on standard output
            (cd "crates/$1" && exec ${3:+"$3"} rt run --cpu "$cpu" </dev/null 2>&1 >/dev/null) &
        else
            (cd "crates/$1" && exec ${3:+"$3"} rt lib --cpu "$cpu" </dev/null 2>&1) &
        fi
        echo "$!" >"$2.group"
        wait "$!" || echo "$?" >"$2.failed"
    } | progress "$1" "$2"
    if [ ! -e "$2.failed" ]; then return 0; fi
    cat "$2" >&2
    return 1
}

# find_kit: sets kit to the folder of the kit whose rt is on the PATH.
find_kit() { kit=$(dirname "$(dirname "$(readlink -f "$(command -v rt)")")"); }

# over_libraries VERB CRATE WORD...: the prover itself, called as rt calls it, over the crate's libraries as they are built; rt takes no other toolchain,
# and after `rt ci` it would prove these libraries once more.
over_libraries() {
    verb=$1 crate=$2
    shift 2
    find_kit
    top=lib
    if [ -e "crates/$crate/src/main.rt" ]; then top=main; fi
    set -- "$verb" --crate-name "$crate" "src/$top.rt" --extern "std=$kit/rlibs/std.rlib" -L "dependency=$kit/rlibs" \
        --antt-project "$kit/rattle/logic/antt-project.json" --logic-built "$kit/logic_built" --jobs 2 --links "$crate=" "$@"
    for library in $(bindings/sources --libraries "$crate"); do
        if [ -d "crates/$library" ]; then
            set -- "$@" --extern "$library=../$library/out/rlib/$library.rlib"
        else
            set -- "$@" --extern "$library=$kit/rlibs/$library.rlib"
        fi
    done
    for library in $(bindings/sources --crates "$crate"); do
        if [ "$library" != "$crate" ]; then set -- "$@" -L "dependency=../$library/out/rlib"; fi
    done
    (cd "crates/$crate" && exec "$kit/bin/rattle" "$@")
}

# Whether `rt ci` has just proved every crate, as NOBYALUK_PROVED says, and its libraries are those that lie here: it proves from nothing and leaves them
# without a stamp, but it puts those of an earlier `rt check` or `rt lib` back, which may be of other sources.
is_proved() {
    [ -n "${NOBYALUK_PROVED:-}" ] && is_first
}

# make_program NAME LOG: proves a program over its libraries, and builds it into crates/NAME/out as rt does.
make_program() {
    find_kit
    mkdir -p "crates/$1/out"
    over_libraries build "$1" --cpu "$cpu" --toolchain "$kit/toolchain" -o "out/$1.o" >"$2" 2>&1 </dev/null || { cat "$2" >&2 && return 1; }
    "$kit/bin/rattle-link" --target x86_64-unknown-linux-gnu --toolchain "$kit/toolchain" -o "crates/$1/out/$1" "crates/$1/out/$1.o" \
        "$kit/c/libos_c.a" "$kit/c/liblibc_c.a"
}

# make_archive LOG TOOLCHAIN: proves exports over its libraries and makes target/staticlib/libexports.a by this toolchain.
make_archive() {
    mkdir -p target/staticlib
    kept='--incremental out/incremental'
    if is_proved; then kept=''; fi
    # shellcheck disable=SC2086
    over_libraries build exports --crate-type staticlib --cpu "$cpu" --backend llvm --toolchain "$2" $kept -o "$PWD/target/staticlib/libexports.a" >"$1" 2>&1 </dev/null ||
        { cat "$1" >&2 && return 1; }
    keep_verdict "$1"
}

# keep_archive LOG: puts the archive that `rt lib` has made into target/staticlib.
keep_archive() {
    mkdir -p target/staticlib
    cp crates/exports/out/libexports.a target/staticlib/libexports.a.new
    mv target/staticlib/libexports.a.new target/staticlib/libexports.a
    keep_verdict "$1"
}

# keep_verdict LOG: the verdict on the archive, the last one of the log, is printed and kept in target/staticlib/proved.
keep_verdict() {
    if grep '^logic=.*axioms=[1-9]' "$1" >&2; then echo "$who: the archive assumes what C functions do" >&2 && return 1; fi
    grep '^logic=proved ' "$1" | tail -n 1 | grep ' target=x86_64' >target/staticlib/proved || { echo "$who: rt does not say that the archive is proved" >&2 && return 1; }
    cat target/staticlib/proved
}

# keep_program NAME LOG SUM: puts a program that is proved and built into target/bin, its verdict into target/log, and into target/run the sum of its
# sources and its own, by which ./run knows it. Where rt found nothing to prove, the verdict of before stays.
keep_program() {
    mkdir -p target/bin target/log target/run
    cp "crates/$1/out/$1" "target/bin/$1.new" && mv "target/bin/$1.new" "target/bin/$1" || return 1
    if grep -q '^logic=proved ' "$2"; then grep '^logic=proved ' "$2" | tail -n 1 >"target/log/$1.out"; fi
    printf '%s\n' "$3" "$(cksum <"target/bin/$1")" >"target/run/$1.new" && mv "target/run/$1.new" "target/run/$1"
}
