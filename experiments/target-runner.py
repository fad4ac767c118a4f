"""A run for irace, which chooses how many jobs a round of pfs removes and how many passes it has.

Searches with the program `pfs` for the rounds that a number of table cells pays for, so that all settings have the same
work, audits the order, and prints its makespan.

usage: target-runner.py CONFIGURATION PLACE SEED INSTANCE --take N --passes N
"""
import argparse
import subprocess

# Table cells for each operation of the instance: some 30 milliseconds on 50×20.
CELLS = 50_000

parser = argparse.ArgumentParser()
for name in ("configuration", "place", "seed", "instance"):
    parser.add_argument(name)
for name in ("--take", "--passes"):
    parser.add_argument(name, type=int, required=True)
args = parser.parse_args()


def pfs(*words: object, text: str = "") -> str:
    """Returns what pfs prints."""
    return subprocess.run(["pfs", *map(str, words)], input=text, stdout=subprocess.PIPE, text=True, check=True).stdout


jobs = int(pfs("convert", "--from", "taillard", "--to", "orlib", args.instance).split()[3])
take = min(args.take, jobs)
cells = 2 * take * (2 * jobs - take) + args.passes * jobs * (4 * jobs - 2)
order = pfs("solve", "--layout", "taillard", "--rounds", min(1_000_000, CELLS * jobs // cells), "--take", take,
            "--passes", args.passes, "--seed", args.seed, args.instance)
print(pfs("check", "--layout", "taillard", args.instance, "/dev/stdin", text=order).split()[2])
