#!/usr/bin/env bash
# Shows that the comparison finds faults: each one is put into a copy of the sources, and has to be found within a minute.
#   compare/fault.sh ORACLE [NAME..]      all faults, or the named ones
# The prover refuses such a source, and only what is proved is built. So the test programs are compiled from the faulty copy without
# proof, by `rt try` of a copy of the kit whose compiler also keeps the code optimized and without the checks of a try. The comparison
# then runs with these programs. Needs what compare/run.sh needs and has built, and python3.
set -euo pipefail
oracle=$(cd "${1:?usage: fault.sh ORACLE [NAME..]}" && pwd)
shift
wanted=("$@")
cd "$(dirname "$0")/.."
[ -f crates/magnetar_c/out/libmagnetar_c.a ] || (cd crates/magnetar_c && rt lib) >/dev/null
compare/build.sh "$oracle" crates/magnetar_c/out target/compare
kit=$(dirname "$(dirname "$(readlink -f "$(command -v rt)")")")
copy=$(mktemp -d)
trap 'rm -rf "$copy"' EXIT
mkdir -p "$copy/bin" "$copy/kit/bin"

# the kit with a compiler that keeps the object of -O3
ln -s "$kit"/* "$copy/kit" 2>/dev/null || true
rm -f "$copy/kit/toolchain"
ln -s "$kit"/bin/* "$copy/kit/bin"
cp --remove-destination "$kit/bin/rt" "$kit/bin/rtlib.py" "$copy/kit/bin"
cp -rs "$kit/toolchain" "$copy/kit/toolchain"
rm "$copy/kit/toolchain/bin/clang"
cat >"$copy/kit/toolchain/bin/clang" <<C
#!/usr/bin/env bash
case " \$* " in
    *" -fsanitize=address "*)
        words=()
        for word in "\$@"; do
            case "\$word" in -fsanitize=*) ;; -O0) words+=(-O3) ;; *) words+=("\$word") ;; esac
        done
        "$kit/toolchain/bin/clang" "\${words[@]}" && cp module.o "$copy/module.o"
        ;;
esac
exec "$kit/toolchain/bin/clang" "\$@"
C
chmod +x "$copy/kit/toolchain/bin/clang"

# compiled PROGRAM: from the sources of the copy
compiled() {
    rm -f "$copy/module.o"
    (cd "$copy/crates/$1" && "$copy/kit/bin/rt" try </dev/null) >"$copy/said" 2>&1 || { cat "$copy/said"; exit 1; }
    "$kit/bin/rattle-link" --target x86_64-unknown-linux-gnu --toolchain "$kit/toolchain" -o "$copy/bin/$1" "$copy/module.o" \
        "$kit/c/libos_c.a" "$kit/c/liblibc_c.a" >/dev/null 2>&1
}

compared() {
    compiled magnetar_vectors && compiled magnetar_forms && compiled magnetar_cases || return
    RAYON_NUM_THREADS=1 target/compare/compare "$copy/bin" "$@" >"$copy/said" 2>/dev/null
}

fresh() {
    rm -rf "$copy/crates" "$copy/said"
    rm -f "$copy"/bin/*
    tar c --exclude=out crates crates.txt | tar x -C "$copy"
}

# fault NAME FILE OLD NEW: one line of a copy changed
fault() {
    if [ ${#wanted[@]} -gt 0 ] && [[ " ${wanted[*]} " != *" $1 "* ]]; then return; fi
    fresh
    python3 - "$copy/crates/$2" "$3" "$4" <<'P'
import sys
path, old, new = sys.argv[1:]
text = open(path).read()
assert text.count(old) == 1, (path, old, text.count(old))
open(path, "w").write(text.replace(old, new))
P
    # only a difference that the comparison names is a fault found: not a program that was not built, nor a run that failed
    compared 60 1 || true
    if grep -q '^DIFFERENT' "$copy/said" 2>/dev/null; then
        echo "$1: $(tail -n 1 "$copy/said")"
        grep '^DIFFERENT' "$copy/said" | sed 's/^DIFFERENT: /    /; s/; the smallest input:$//'
    else
        echo "$1: NOT FOUND"
        missed=1
    fi
}

missed=0
fresh
if [ ${#wanted[@]} -eq 0 ]; then
    compared 10 1 || { cat "$copy/said"; echo "programs of the sources as they are differ"; exit 1; }
    echo "no fault: $(tail -n 1 "$copy/said")"
fi
# round one is checked, row rounds and inner rounds are not checked
fault later-rounds magnetar_verifier/src/found.rt 'next.holds' \
    'next.holds || (refusal != Refusal::SharedBin && refusal != Refusal::SharedFld)'
# the last identity compares low words only
fault high-words magnetar_verifier/src/end.rt '    x + y == v' $'    let s = x + y;\n    s.lo == v.lo'
# the remainder of a product forgets a bit
fault remainder magnetar_field/src/gf128.rt '(t.w3 >> 57)' '(t.w3 >> 58)'
# an eq table begins with 1, whatever it is to start from
fault start magnetar_multilinear/src/eq.rt 'words::put(out, 0, start);' 'words::put(out, 0, ONE);'
# a counter of 2^32 is let through
fault counter magnetar_spartan/src/refusal.rt $'require(n < 0x100000000, Refusal::Counter)?;\n    require(claims' \
    $'require(n < 0x100000001, Refusal::Counter)?;\n    require(claims'
# an absorption takes a counter of 2^32
fault late-absorption magnetar_hash/src/transcript.rt 'headed(on_time(t)?, b"absorb", label)' 'headed(t, b"absorb", label)'
# a later equal entry replaces an earlier one
fault later-entry magnetar_matrix/src/step.rt 'words::put(out, k, words::get(out, k) + e);' 'words::put(out, k, e);'
# bits past the columns of a login are read
fault upper-bits magnetar_batch/src/fold.rt 'word % (1 << n)' 'word'
# one round constant of the permutation
fault round-constant magnetar_keccak/src/keccak.rt 0x8000000080008000 0x8000000080008001
# a label
fault label magnetar_prover/src/events.rt 'b"vs-vz"' 'b"vs-vx"'
# numbers of entries that don't add up to the slices are let through
fault counts magnetar_relation/src/rules.rt 'numbers(entries_in(s.bin) + entries_in(s.fld), counts)?;' 'numbers(counts[0], counts)?;'
# the entries of fld begin behind as many entries of C of bin as B has
fault border magnetar_relation/src/range.rt 'after(b, t.c.entries, n)' 'after(b, t.b.entries, n)'
# the second matrix of a system takes the third one's alpha
fault record-alpha magnetar_batch/src/combo.rt 'add_matrix(s, m, n, al, k + 1, p, &b);' 'add_matrix(s, m, n, al, k + 2, p, &b);'
# the verifier's scratch: the former number of words is asked for; all words of the former formula are cleared where they are lent
fault former-scratch magnetar_protocol/src/scratch.rt '    2 * m + 2 * rb.max(rf) + 2 * q' '    4 * m + 4 * rb.max(rf) + 2 * q'
fault former-cleared magnetar_spartan/src/stages.rt 'let n = m.saturating_add(rows).saturating_add(q);' \
    'let n = (2 * m + 2 * rows + q).min(s.len() / 2);'
# the verifier's value of the combined table: the second matrix of a system takes the first one's alpha; the row point's order is reversed
fault one-alpha magnetar_batch/src/value.rt 'words::get(&al, i + 1)' 'words::get(&al, i)'
fault row-point magnetar_batch/src/value.rt 'words::get(p, j)' 'words::get(p, n - 1 - j)'
# the third matrix's entries count for the second
fault record-rows magnetar_batch/src/eval.rt 'let y = matrix_value(s, k, m, n, p, &b);' 'let y = matrix_value(s, k, m, n, p, &c);'
# public columns of login 0 for every login: in the packed products, in the folded public half, in the row check
fault first-products magnetar_r1cs/src/r1cs.rt 'if within || columns::repeats(x, l) {' 'if within || l <= x.len() {'
fault first-half magnetar_batch/src/fold.rt '&x[u * l..]' '&x[0 * l..]'
fault first-login magnetar_relation/src/login.rt 'let a = login_start(u, k, x.len());' 'let a = login_start(0, k, x.len());'
# stray bits: a failing row of bin is told before them; the highest column of a word is told; only the first word of a login is looked at; the
# row check takes any segments
fault rows-first magnetar_check/src/check.rt 'return RowCheck::Stray(bit.login, bit.column);' \
    'return first_failing(s, q, of, sh.bin, 0, es).map_or(RowCheck::Stray(bit.login, bit.column), |f| RowCheck::Bin(f.login, f.row));'
fault highest-column magnetar_relation/src/stray.rt 'common.trailing_zeros() as usize' '(63 - common.leading_zeros()) as usize'
fault first-word magnetar_relation/src/stray.rt 'if common != 0 {' 'if common != 0 && k == 0 {'
fault any-segments magnetar_check/src/check.rt 'layout::refusal(m / 2, lens)' 'layout::refusal(m / 2, lens).or(Ok(()))'
exit $missed
