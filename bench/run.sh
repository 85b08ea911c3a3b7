#!/usr/bin/env bash
# Machine: the same images on minicode and on a plain interpreter in C, in turn: medians of five and their ratio. minicode's time
# includes assembling the text; both include starting the program.
# Compiler: the proved one and the second one on the same sources, in turn: medians of five, ratios, and growth with the size.
# Assembler: the same on the texts with the most labels. Symbols: the same on names, reserved words and a program.
set -euo pipefail
cd "$(dirname "$0")/.."
for program in minicode bcpl; do
    (cd "crates/$program" && rt run < /dev/null > /dev/null)
done
mkdir -p target/bench
gcc -O2 bench/plain.c -o target/bench/plain
rustc -O --edition 2021 tests/second/second.rs -o target/bench/second
cp bench/*.min target/bench
crates/bcpl/out/bcpl -S bench/fibonacci.b > target/bench/fibonacci.min
python3 - <<'PY'
import statistics, subprocess, time
print(f"{'image':<34}{'minicode s':>12}{'plain C s':>12}{'ratio':>8}")
for name in ["mixed", "loop", "fibonacci"]:
    text, image = f"target/bench/{name}.min", f"target/bench/{name}.img"
    subprocess.run(["target/bench/second", "--image", text, image], check=True)
    commands = {"minicode": ["crates/minicode/out/minicode", text], "plain": ["target/bench/plain", image]}
    wanted = open(f"bench/{name}.out", "rb").read()
    times = {"minicode": [], "plain": []}
    for _ in range(5):
        for program, command in commands.items():
            begin = time.perf_counter()
            run = subprocess.run(command, stdin=subprocess.DEVNULL, stdout=subprocess.PIPE, stderr=subprocess.DEVNULL, check=False)
            times[program].append(time.perf_counter() - begin)
            if run.stdout != wanted:
                raise SystemExit(f"{program} printed something else than {name}.out")
    ours, plain = statistics.median(times["minicode"]), statistics.median(times["plain"])
    print(f"{name:<34}{ours:>12.3f}{plain:>12.3f}{ours / plain:>8.2f}")
PY
(cd crates/testbed && rt lib > /dev/null)
rustc -O --edition 2021 --cfg proved tests/second/compile_time.rs -L crates/testbed/out -l static=testbed -o target/bench/compile_time
target/bench/compile_time
rustc -O --edition 2021 --cfg proved tests/second/assemble_time.rs -L crates/testbed/out -l static=testbed -o target/bench/assemble_time
target/bench/assemble_time
rustc -O --edition 2021 --cfg proved tests/second/symbols_time.rs -L crates/testbed/out -l static=testbed -o target/bench/symbols_time
target/bench/symbols_time
