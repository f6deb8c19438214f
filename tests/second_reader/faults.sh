#!/bin/sh
# faults.sh: copies of the library, each with one deliberate fault (faults/*.edit), given to the comparison, which has to find it
# within a minute. First a copy without one, in which it has to find nothing.
#
# A copy with a fault cannot be proved, and rt builds nothing else. rt's trial of a program with no proof (rt try) does compile, so
# quayrudder_c is compiled as a program whose main calls each export once, the module that reaches the kit's compiler is kept, and faults/exports.c
# gives its functions their C names. What is made here is for this trial alone.
set -eu
cd "$(dirname "$0")/../.."
here=tests/second_reader
kit=$(dirname "$(dirname "$(readlink -f "$(command -v rt)")")")
out=$PWD/target/faults
rm -rf "$out"
mkdir -p "$out/lib"
# Outside the checkout: rt ci refuses links, and sources that it does not check.
work=$(mktemp -d)
trap 'rm -rf "$work"' EXIT

# The kit, with a compiler that keeps the module.
mkdir -p "$work/kit/bin" "$work/kit/toolchain/bin"
for part in "$kit"/* "$kit"/bin/* "$kit"/toolchain/* "$kit"/toolchain/bin/*; do
    to=$work/kit${part#"$kit"}
    case ${part#"$kit"} in
    /bin | /toolchain | /toolchain/bin | /toolchain/bin/clang) ;;
    /bin/rt | /bin/rtlib.py) cp "$part" "$to" ;;
    *) ln -s "$part" "$to" ;;
    esac
done
cat > "$work/kit/toolchain/bin/clang" << SCRIPT
#!/bin/sh
case " \$* " in *" -fsanitize=address "*) cp module.bc "$work/module.bc" ;; esac
exec "$kit/toolchain/bin/clang" "\$@"
SCRIPT
chmod +x "$work/kit/toolchain/bin/clang"

# compile CRATES: out/lib/libquayrudder.a from these sources, with no proof.
compile() {
    rm -rf "$work/try" "$work/module.bc"
    for folder in "$1"/*/src; do
        to=$work/try/crates/$(basename "$(dirname "$folder")")
        mkdir -p "$to"
        cp -r "$folder" "$to/src"
    done
    sed 's/^quayrudder_c staticlib:/quayrudder_c:/' crates.txt > "$work/try/crates.txt"
    python3 - "$work/try/crates/quayrudder_c/src" << 'SCRIPT'
import pathlib, re, sys
folder = pathlib.Path(sys.argv[1])
text = (folder / "lib.rt").read_text("utf-8")
empty = {"&[u8]": "&[]", "&[u32]": "&[]", "&mut [u8]": "&mut [0u8; 0]", "&mut [u32]": "&mut [0u32; 0]"}
calls = []
for name, given in re.findall(r'pub extern "C" fn (\w+)\(([^)]*)\)', text):
    types = [it.split(":")[1].strip() for it in given.split(",") if it.strip()]
    calls.append(f"    let _{name} = {name}({', '.join(empty.get(it, '0') for it in types)});\n")
(folder / "main.rt").write_text(f"{text}\nfn main() {{\n{''.join(calls)}}}\n", "utf-8")
(folder / "lib.rt").unlink()
SCRIPT
    (cd "$work/try/crates/quayrudder_c" && "$work/kit/bin/rt" try > "$out/compile.log" 2>&1 < /dev/null) || { cat "$out/compile.log"; exit 1; }
    clang="$kit/toolchain/bin/clang --target=x86_64-unknown-linux-gnu --no-default-config"
    $clang -S -emit-llvm -x ir "$work/module.bc" -o "$work/module.ll"
    sed -E -i 's/@"quayrudder_c::(qr_[a-z_]+)"/@rattle_\1/g; s/^define internal (.*@rattle_qr_)/define \1/; s/@main\(/@rattle_main(/' "$work/module.ll"
    $clang -c -O3 -fPIC -x ir "$work/module.ll" -o "$out/module.o"
    gcc -O2 -fPIC -c "$here/faults/exports.c" -o "$out/exports.o"
    rm -f "$out/lib/libquayrudder.a"
    ar rcs "$out/lib/libquayrudder.a" "$out/module.o" "$out/exports.o"
}

# edit FILE: applies it to a copy of the crates; its old text has to stand there once.
edit() {
    rm -rf "$work/crates"
    for folder in crates/*/src; do
        mkdir -p "$work/$(dirname "$folder")"
        cp -r "$folder" "$work/$folder"
    done
    python3 - "$1" "$work/crates" << 'SCRIPT'
import pathlib, sys
lines = dict(line.split(": ", 1) for line in pathlib.Path(sys.argv[1]).read_text().splitlines() if not line.startswith("#"))
path = pathlib.Path(sys.argv[2]) / lines["file"]
text = path.read_text()
assert text.count(lines["old"]) == 1, f"{sys.argv[1]}: {text.count(lines['old'])} places"
path.write_text(text.replace(lines["old"], lines["new"]))
SCRIPT
}

# compare SEED SECONDS CASE: the comparison over out/lib; its status.
compare() {
    QUAYRUDDER_LIB=$out/lib/libquayrudder.a cargo build --quiet --release --offline \
        --manifest-path "$here/Cargo.toml" --target-dir "$out/build"
    "$out/build/release/second_reader" compare --seed "$1" --seconds "$2" --case "$3" > "$out/compare.log"
}

echo "no fault"
compile crates
compare 10 10 "$out/none.case" || { cat "$out/compare.log"; echo "faults: a difference where there is no fault"; exit 1; }
head -n 3 "$out/compare.log"

seed=11
for fault in off_by_one tail order pair run twice exchange amend compact why entry smallest; do
    printf '\n%s: ' "$fault" && head -n 1 "$here/faults/$fault.edit" | cut -c3-
    edit "$here/faults/$fault.edit"
    compile "$work/crates"
    status=0
    compare "$seed" 60 "$out/$fault.case" || status=$?
    cat "$out/compare.log"
    [ "$status" -eq 1 ] && [ -f "$out/$fault.case" ] || { echo "faults: $fault was not found"; exit 1; }
    grep -v "^pixels\|^frame\|^buffer" "$out/$fault.case" | cut -c1-100
    seed=$((seed + 1))
done
printf '\ntwelve faults, each found\n'
