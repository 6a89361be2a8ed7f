# Sourced by the script `run` of each bench. README.md says what is needed. All that is written goes to target/: a Rattle file anywhere
# else that no listed crate has is an error to rt.
here=$(cd "$(dirname "$0")" && pwd)
bench=$(dirname "$here")
work=$(dirname "$bench")/target/bench/$(basename "$here")
rt=$(readlink -f "$(command -v rt)")
kit=${RATTLE_HOME:-${rt%/bin/rt}}
tools=$kit/toolchain
loader=$tools/lib/ld-linux-x86-64.so.2
qemu=${QEMU:-qemu-x86_64}
x86=x86_64-unknown-linux-gnu

fail() { echo "bench: $*" >&2; exit 1; }
clang() { "$tools/bin/clang" --target=$x86 "$@"; }
object() { clang -O3 -fPIE "-I$bench/../include" -isystem "$bench/../clients/c/headers" -c "$1" -o "$2"; }

# quiet COMMAND..: what it says is only shown where it fails.
quiet() { "$@" >"$work/log" 2>&1 || { cat "$work/log" >&2; fail "failed: $*"; }; }

# begin [quick] [PROJECT]: the archive of the project, proved, or the same sources compiled unproved, as $library.
begin() {
    quick=
    [ "${1:-}" != quick ] || { quick=1 work=$work-quick; shift; }
    project=$(cd "${1:-$bench/..}" && pwd)
    command -v "$qemu" >/dev/null || fail "no $qemu here; bench/README.md says what is needed"
    emulator=$qemu
    [ "$(uname -m)" != x86_64 ] || emulator=
    mkdir -p "$work"
    if [ -n "$quick" ]; then compile; else prove; fi
}

# prove: the proved archive, made anew where a crate, the kit or the archive is another than when it was last made here.
prove() {
    library=$project/target/staticlib/liburszovely.a
    made=$project/target/bench/archive.sums
    mkdir -p "${made%/*}"
    cd "$project"
    if ! sums 2>"$work/log" | cmp -s - "$made"; then
        echo "bench: proving; this takes minutes" >&2
        quiet .ci/archive
        sums >"$made"
    fi
    cd "$OLDPWD"
}
sums() { rt version; sha256sum "$library" crates.txt $(find crates -name must-fail -prune -o -type f -print | sort); }

# crates_below NAME: the crates of the project that it rests on, and the crate, bottom up.
crates_below() {
    awk -F: -v top="$1" '
        function need(name,    below, count, i) {
            if (name in needed || !(name in needs)) return
            needed[name]
            count = split(needs[name], below, " ")
            for (i = 1; i <= count; i++) need(below[i])
            print name
        }
        { sub(/ staticlib$/, "", $1); needs[$1] = $2 }
        END { need(top) }' "$project/crates.txt"
}

# catch MAIN NAME LIBRARY..: the code of a program over these libraries, NAME=FILE each, bottom up, in $work/caught.bc: unproved, as `rt
# try` compiled it in kits that had rattle-cases. A stand-in for the kit's clang keeps the code on its way. Today's kit compiles unproved code only with its checks
# in it, and only what the program reaches, so that nothing would be measured by it.
catch() {
    [ -x "$kit/bin/rattle-cases" ] || fail "this kit has no rattle-cases, so unproved code cannot be measured: leave out quick"
    rm -rf "$work/catch/bin" "$work/catch/lib"
    mkdir -p "$work/catch/bin"
    ln -s "$tools/lib" "$work/catch/lib"
    for tool in "$tools"/bin/*; do ln -s "$tool" "$work/catch/bin"; done
    rm "$work/catch/bin/clang"
    cat >"$work/catch/bin/clang" <<END
#!/bin/sh
case " \$* " in *" -O3 "*) for word; do case \$word in *.bc) cp "\$word" "$work/caught.bc" ;; esac; done ;; esac
exec "$tools/bin/clang" "\$@"
END
    chmod +x "$work/catch/bin/clang"
    main=$1 name=$2
    shift 2
    for file; do
        set -- "$@" --lib "$file"
        shift
    done
    quiet "$kit/bin/rattle-cases" --toolchain "$work/catch" "$main" --crate-name "$name" --lib "std=$kit/rattle/std/src/lib.rt" "$@"
}

# optimise FROM TO: LLVM's code to an object file, with the kit's own flags.
optimise() {
    clang -march=x86-64 -O3 -fPIC -ffunction-sections -fdata-sections -mllvm -trap-unreachable -mllvm -no-trap-after-noreturn \
        -Wno-override-module -c -x ir "$1" -o "$2"
}

# unbound FILE: LLVM's text without what binds it to a processor.
unbound() { sed -E -e '/^target /d' -e 's/"(target-cpu|target-features|tune-cpu)"="[^"]*"//g' -e 's/= \{ +\}$/= { nounwind }/' "$1"; }

# compile: the archive unproved. rt leaves no code of a library that is not proved, so the program is an empty one. All exported
# functions are then made visible as raw_urszovely_..: raw.c gives those that are asked their C form.
compile() {
    [ -x "$kit/bin/rattle-cases" ] || fail "this kit has no rattle-cases, so unproved code cannot be measured: leave out quick"
    mkdir -p "$work/catch/src"
    echo 'fn main() {}' >"$work/catch/src/main.rt"
    set --
    for name in $(crates_below urszovely); do set -- "$@" "$name=$project/crates/$name/src/lib.rt"; done
    catch "$work/catch/src/main.rt" empty "$@"
    clang -S -emit-llvm -O0 -Xclang -disable-llvm-passes -x ir "$work/caught.bc" -o "$work/inner.ll"
    sed -E -e 's/^define internal ([a-z0-9 ]+) @"urszovely::(urszovely_[a-z0-9_]+)"/define \1 @raw_\2/; s/@"urszovely::(urszovely_[a-z0-9_]+)"/@raw_\1/g' \
        -e 's/^define i32 @main\(\)/define internal i32 @empty_main()/' "$work/inner.ll" >"$work/raw.ll"
    optimise "$work/raw.ll" "$work/raw.o"
    object "$bench/raw.c" "$work/forms.o"
    library=$work/liburszovely.a
    rm -f "$library"
    "$tools/bin/llvm-ar" rcs "$library" "$work/raw.o" "$work/forms.o"
}

# plain ARCHIVE [TARGET]: the straightforward Rust, for this processor or the target's. Where rustc has no library for x86-64 it goes
# there by way of LLVM's text, and what it calls where it gives up is a trap.
plain() {
    set -- "$1" "${2:-}" --edition 2021 -C opt-level=3 -C panic=abort -C codegen-units=1 --check-cfg 'cfg(one_loop)' ${PLAIN:+--cfg "$PLAIN"} "$here/plain.rs"
    to=$1 target=$2
    shift 2
    if [ -z "$target" ] || [ -d "$(rustc --print sysroot)/lib/rustlib/$target" ]; then
        rustc --crate-type staticlib ${target:+--target "$target"} -o "$to" "$@"
        return
    fi
    rustc --crate-type lib -C no-prepopulate-passes --emit llvm-ir -o "$work/own.ll" "$@"
    unbound "$work/own.ll" >"$work/plain.ll"
    sed -nE 's/^declare .*@(_[ZR]N[A-Za-z0-9_$]*)\(.*/void \1(void) { __builtin_trap(); }/p' "$work/own.ll" >"$work/traps.c"
    optimise "$work/plain.ll" "$work/plain.o"
    object "$work/traps.c" "$work/traps.o"
    rm -f "$to"
    "$tools/bin/llvm-ar" rcs "$to" "$work/plain.o" "$work/traps.o"
}

# link PROGRAM FILE..: an x86-64 program.
link() { quiet "$kit/bin/rattle-link" --target $x86 --toolchain "$tools" -o "$@"; }

# run WORDS..: the program, under the emulator where the processor cannot run it.
run() { $emulator "$loader" --library-path "$tools/lib" "$work/drive" "$@"; }

# counted WORDS..: what the program says, a line for each pair of getppid() calls, and after a tab the instructions between the two. Without
# an environment, since where the stack begins moves a `memset` by some instructions.
counted() {
    cc -O2 -shared -fPIC -o "$work/icount.so" "$bench/icount.c"
    (cd "$work" && env -i "$(command -v "$qemu")" -plugin ./icount.so "$loader" --library-path "$tools/lib" ./drive "$@") >"$work/names" 2>"$work/counts" ||
        fail "$qemu: $(head -n 3 "$work/counts")"
    paste "$work/names" "$work/counts"
}

# commas: the numbers of a table as docs/SPEED.md writes them.
commas() { sed -E ':again; s/([0-9])([0-9]{3})($|[^0-9])/\1,\2\3/; t again'; }

# timed: the times of the program. Where the processor cannot run x86-64, those of the same source, unproved, and the same Rust, compiled for it.
timed() {
    [ -n "$emulator" ] || { run time; return; }
    [ -n "$quick" ] || compile
    unbound "$work/raw.ll" >"$work/own.ll"
    "$tools/bin/clang" --target="$(uname -m)-unknown-linux-gnu" -O3 -fPIE -Wno-override-module -c -x ir "$work/own.ll" -o "$work/own.o"
    plain "$work/libown.a"
    cc -O3 -w "-I$bench/../include" -o "$work/own" "$here/drive.c" "$bench/raw.c" "$work/own.o" "$work/libown.a"
    "$work/own" time
}

# measure FUNCTION COUNT [quick] [PROJECT]: holds the archive's function and the Rust one against each other, on all cases and COUNT random
# questions, then prints the table of their instructions and times.
measure() {
    function=$1 count=$2
    shift 2
    begin "$@"
    plain "$work/libplain.a" $x86
    object "$here/drive.c" "$work/drive.o"
    link "$work/drive" "$work/drive.o" "$library" "$work/libplain.a"
    run compare "$count"
    counted count >"$work/instructions"
    timed >"$work/times"
    awk -v function_name="$function" -f "$bench/report.awk" part=1 "$work/instructions" part=2 "$work/times" >"$work/table"
    commas <"$work/table"
}
