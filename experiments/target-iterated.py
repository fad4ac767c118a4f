"""A run for irace of the search `iterated-greedy` of the package, for the same processor time with all settings.

usage: target-iterated.py CONFIGURATION PLACE SEED INSTANCE --take N --partial N --temperature T
"""
import argparse
import time

import pfs

# Processor seconds for each operation of the instance: half of the time factor, in milliseconds.
SECONDS = 0.0015

parser = argparse.ArgumentParser()
for name in ("configuration", "place", "seed", "instance"):
    parser.add_argument(name)
for name, kind in (("--take", int), ("--partial", int), ("--temperature", float)):
    parser.add_argument(name, type=kind, required=True)
args = parser.parse_args()

shop = pfs.read(args.instance, "taillard")
end = time.process_time() + SECONDS * shop.jobs * shop.machines
found = shop.neh()
while time.process_time() < end:
    found = shop.solve(found.rounds + 10, method="iterated-greedy", take=min(args.take, shop.jobs), seed=int(args.seed),
                       partial=args.partial, temperature=args.temperature, start=found, first=found.rounds)
print(shop.makespan(found))
