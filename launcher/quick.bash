# Builds the program without a proof. `rt try` compiles a whole program before any proof, and hands it to clang as one module. Here rt
# works with a kit beside its own: links to the kit's files, but for a clang that keeps the module and ends. The kit's linker
# then makes a few passes over the module, and the code of its parts side by side.

kit=
doing=

# Makes the kit beside. rt finds its kit by where its own file lies, so that is a copy; the other commands of `rattle` are passed on, but
# for a check that `rt try` begins only to say what a proof would refuse.
make_kit() {
    local beside=$room/kit file
    kit=$(dirname -- "$(rt doc </dev/null 2>/dev/null | tail -n 1)")
    [ -d "$kit/toolchain/bin" ] && mkdir -p "$beside/bin" "$beside/toolchain/bin" || return 1
    for file in "$kit"/* "$kit"/bin/* "$kit"/toolchain/* "$kit"/toolchain/bin/*; do
        case ${file#"$kit/"} in
        bin | toolchain | toolchain/bin) ;;
        bin/rattle) a_script "$beside/bin/rattle" '[ "${1-}" != check ] || exit 0' "exec $(printf %q "$file") \"\$@\"" ;;
        toolchain/bin/clang) a_script "$beside/toolchain/bin/clang" "$(keep_module)" "exec $(printf %q "$file") \"\$@\"" ;;
        bin/rt | bin/rt*.py) cp -- "$file" "$beside/bin/" || return 1 ;;
        *) ln -s -- "$file" "$beside/${file#"$kit/"}" || return 1 ;;
        esac
    done
}

# What the clang beside does first: of two calls one is a trial of a few lines, and one, with the sanitizer, has the program.
keep_module() {
    local module
    module=$(printf %q "$room/module.bc")
    echo 'case " $* " in *" -fsanitize=address "*)'
    echo "    for word; do case \$word in *.bc) cp -- \"\$word\" $module.part && mv -- $module.part $module ;; esac; done"
    echo '    exit 1 ;;'
    echo 'esac'
}

a_script() { # FILE LINE..
    printf '%s\n' '#!/bin/bash' "${@:2}" >"$1" && chmod +x "$1"
}

# The passes that the module gets as a whole. Those of -O1 take five times as long, and make a program that is hardly faster.
small='function(sroa,early-cse,simplifycfg)'
passes="globaldce,$small,cgscc(inline,function(sroa,early-cse,instcombine<no-verify-fixpoint>,simplifycfg)),globaldce"

# The words of the link are those of the kit's own.
link_module() {
    local parts tools=$kit/toolchain
    parts=$((3 * $(nproc))) # more than there are processors, since some take longer than others
    [ "$parts" -le 16 ] || parts=16
    run_beside "$tools/bin/ld.lld" -m elf_x86_64 -pie -o "$room/program" --lto-newpm-passes="$passes" --lto-CGO1 --disable-verify \
        --lto-partitions="$parts" --threads="$parts" --gc-sections --as-needed -mllvm -no-trap-after-noreturn "$tools"/lib/{Scrt1,crti,crtbeginS}.o \
        "$room/module.bc" --start-group "$kit/c/libos_c.a" "$kit/c/liblibc_c.a" --end-group "$tools"/lib/{libm.so.6,libc.so.6} \
        "$tools"/lib/{libgcc.a,libc_nonshared.a} "$tools"/lib/{crtendS,crtn}.o -dynamic-linker /lib64/ld-linux-x86-64.so.2
}

# Says why there is no program. Where the sources are at fault, a proof would find the same.
tell_quick_failure() { # STEP
    end_if_stopped
    if grep -qE '^\S*\.rt:[0-9]+:[0-9]+: error' "$log"; then
        tell "the sources do not compile; rt said:"
        grep -E 'error' "$log" | head -n 20 >&2
        give_up "all of it stands in $log"
        return 2
    fi
    tell "the quick way to build failed here, as it was $1: $(tail -n 1 "$log")"
    return 1
}

# Builds the program; the status is 1 where this kit or machine can't do it so, and 2 where no other way would help.
build_quickly() {
    tell "the program is built first, which takes some five minutes on four processors, once"
    make_kit || { tell "the quick way to build failed here: the kit of rt has other files"; return 1; }
    doing="compiling, step 1 of 2"
    TMPDIR=$room/tmp run_beside env -C "$room/sources/crates/bureau_main" "$room/kit/bin/rt" try -- --version
    [ -s "$room/module.bc" ] || tell_quick_failure "compiled" || return
    doing="compiling, step 2 of 2"
    link_module || tell_quick_failure "linked" || return
    "$room/program" --version </dev/null 2>&1 | cmp -s - "$top/launcher/version.txt" || tell_quick_failure "tried" || return
}
