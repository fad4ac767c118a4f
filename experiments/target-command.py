"""A run for irace of your program, whose name and words COMMAND has, followed by the values that irace chooses.

The program prints its order, as in a plan of experiments. The order is audited, and its makespan printed.

usage: target-command.py CONFIGURATION PLACE SEED INSTANCE [VALUE ..]
"""
import subprocess
import sys

import pfs

COMMAND = ["./mine", "{instance}", "{seed}", "{seconds}"]
# Processor seconds for each operation of the instance: half of the time factor, in milliseconds.
SECONDS = 0.0015

_, _, _, seed, path, *values = sys.argv
shop = pfs.read(path, "taillard")
words = [word.format(instance=path, seed=seed, seconds=SECONDS * shop.jobs * shop.machines) for word in COMMAND]
lines = subprocess.run([*words, *values], stdout=subprocess.PIPE, text=True, check=True).stdout.split("\n")
check = shop.check(pfs.parse_order([line for line in lines if line.strip()][-1], first=1))
print(check.makespan if check.valid else sys.exit(check.fault))
