# How C is built over the proved library and run, with the kit's own clang, linker and C library. Read by bindings/c/run, axml-round-up and axml-show:
# `. bindings/c/kit.sh`, with $top, the folder of the repository, set, rt on the path, and a function `say` for words to a person.
kit=$(dirname "$(rt doc)")
tools=$kit/toolchain
archive=$top/target/staticlib/libc_api.a # kit_archive writes it

# kit_archive LOG: proves the C interface (crate c_api_c) and all below it, and compiles the archive; LOG has what rt said. Where AXML_PROVED is set, the gate
# has just proved it all in this folder: then the archive alone is made, over the libraries that `rt ci` left.
kit_archive() {
    mkdir -p "$(dirname "$archive")" || return
    if [ -n "${AXML_PROVED-}" ] && [ -d "$top/crates/c_api/out/rlib/c_api.rlib" ]; then
        "$top/tools/archive" "$archive" >"$1" 2>&1
        return
    fi
    (cd "$top/crates/c_api_c" && rt lib) >"$1" 2>&1 && cp "$top/crates/c_api_c/out/libc_api_c.a" "$archive"
}

kit_compiles() { # SOURCE OBJECT FOLDER..: the folders have further headers
    source=$1 object=$2
    shift 2
    for with in "$@"; do
        set -- "$@" -I "$with"
        shift
    done
    "$tools/bin/clang" --target=x86_64-unknown-linux-gnu -fPIE -O2 -std=c99 -Wall -Wextra -Werror -nostdinc \
        -isystem "$top/bindings/c/headers" -I "$top/include" "$@" -c "$source" -o "$object"
}
kit_links() { # PROGRAM OBJECT..
    linked=$1
    shift
    "$tools/bin/ld.lld" -pie --dynamic-linker=/lib64/ld-linux-x86-64.so.2 -o "$linked" "$tools/lib/Scrt1.o" "$tools/lib/crti.o" \
        "$tools/lib/crtbeginS.o" "$@" "$archive" "$tools/lib/libc.so.6" "$tools/lib/libc_nonshared.a" "$tools/lib/ld-linux-x86-64.so.2" \
        "$tools/lib/crtendS.o" "$tools/lib/crtn.o"
}
# The program runs with the kit's loader.
kit_becomes() { # PROGRAM WORD..: in place of the shell
    exec "$tools/lib/ld-linux-x86-64.so.2" --library-path "$tools/lib" "$@"
}
kit_runs() { (kit_becomes "$@"); } # PROGRAM WORD..

# kit_program NAME SOURCE..: the program target/NAME/NAME of these pages and the archive, made on first use and again where something has changed,
# with the tables of tools/c-tables beside it (words.h, tables.h); that is said. The library is proved again only where a crate has changed. False
# where the program was not made.
kit_fresh() { # MADE SOURCE..: it is there, and nothing of the sources is newer
    made=$1
    shift
    [ -f "$made" ] && [ -z "$(cd "$top" && find "$@" -name out -prune -o -newer "$made" -type f -print 2>/dev/null | head -n 1)" ]
}
kit_makes() { # FOLDER PROGRAM SOURCE..
    folder=$1 program=$2
    shift 2
    "$top/tools/c-tables" words >"$folder/words.h" && "$top/tools/c-tables" lent >"$folder/tables.h" || return
    for page in "$@"; do
        object=$folder/$(basename "$page" .c).o
        kit_compiles "$page" "$object" "$folder" || return
        set -- "$@" "$object"
        shift
    done
    kit_links "$program" "$@"
}
kit_program() {
    name=$1 folder=$top/target/$1
    shift
    if kit_fresh "$folder/$name" crates.txt crates include bindings/c docs/words.tsv docs/sentences.tsv oracle/system-names.txt oracle/attr-items.txt \
        tools/c-tables; then return 0; fi
    began=$(date +%s)
    mkdir -p "$folder" && : >"$folder/log" || return
    if ! kit_fresh "$archive" crates.txt crates; then
        say "proving the library and building the program, once: some quarter of an hour"
        kit_archive "$folder/log" || { say "the library was not proved; target/$name/log has all that was said"; return 1; }
        touch "$archive"
    fi
    kit_makes "$folder" "$folder/$name" "$@" >>"$folder/log" 2>&1 || { say "the program was not built; target/$name/log has all that was said"; return 1; }
    touch "$folder/$name"
    say "built in $(($(date +%s) - began)) s"
}
