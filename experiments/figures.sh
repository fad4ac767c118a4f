#!/bin/sh
# Measures the tables of docs/SEARCH.md with the seeds 1 to 5, in some 17 hours of processor time, and what each part of
# iterated-greedy gains. The same line continues after an interruption.
#
# usage: sh experiments/figures.sh FOLDER [OPTION of GNU parallel ..]
#   in the repository's folder, after `make lib taillard`
set -eu
folder=${1:?a folder}
shift
mkdir -p "$folder"
cc -std=c99 -O2 -Ilib -o experiments/out/ig_temperature examples/ig_temperature.c lib/out/libpfs.a -lm
for name in quality ig_temperature yardstick ablation; do
    sed "s|^seeds = .*|seeds = [1, 2, 3, 4, 5]|; s|out/|$PWD/experiments/out/|g" "experiments/$name.toml" \
        > "$folder/$name.toml"
    pfs-experiments run "$folder/$name.toml" "$folder/$name.csv" "$@"
    pfs-experiments report "$folder/$name.csv" "$folder/$name"
done
