"""The command line `pfs-experiments`."""
from __future__ import annotations

import argparse
import importlib
import io
import os
import pathlib
import shutil
import signal
import sys
from typing import Any

from pfs.base.optional import optional
from pfs.commands.cli import CommandLine, ShowVersion, inches, number, run

# Where the program is searched for: on the path, and in the folder of pfs-experiments.
PROGRAMS = f"{os.environ.get('PATH', os.defpath)}:{os.path.dirname(os.path.abspath(sys.argv[0]))}"

def share(text: str) -> tuple[int, int]:
    """Returns the numbers of I/N, of which the first is 1 to the second."""
    first, _, last = text.partition("/")
    if not (first.isdecimal() and last.isdecimal() and 1 <= int(first) <= int(last)):
        raise argparse.ArgumentTypeError(f"{text!r} must be I/N, with I from 1 to N")
    return int(first), int(last)


# Of each command its module, which has a function of its name, and what it does.
COMMANDS = {
    "taillard": ("folders", "Writes the 120 instances of Taillard into a folder."),
    "run": ("run", "Makes the runs of a plan with GNU parallel, which gets the further options."),
    "slurm": ("run", "Makes the runs of a plan on a Slurm cluster, as one array; sbatch gets the further options."),
    "status": ("run", "Writes the CSV of the runs that have ended so far, while the others continue."),
    "check": ("run", "Audits the orders of a CSV again."),
    "prove": ("prove", "Proves bounds of the instances of a CSV, from its best orders, and adds them to it."),
    "audit": ("audit", "Audits a table of published orders."),
    "report": ("report", "Writes tables and plots of CSVs into a folder. Each CSV is a method.")}
# Arguments, each with the commands that have it.
ARGUMENTS: list[tuple[str, str, dict[str, Any]]] = [
    ("taillard run slurm check", "--pfs", {"metavar": "PROGRAM", "default": shutil.which("pfs", path=PROGRAMS),
                                           "help": "the program pfs"}),
    ("run slurm", "--retry", {"action": "store_true", "help": "repeat the runs that failed"}),
    ("run slurm", "plan", {"metavar": "PLAN", "help": "a plan, in TOML"}),
    ("run slurm status check", "csv", {"metavar": "CSV", "help": "the CSV of the runs"}),
    ("prove", "csv", {"metavar": "CSV", "nargs": "?", "help": "the CSV of the runs"}),
    ("prove", "--seconds", {"metavar": "S", "type": number(1, 10 ** 6), "default": 1,
                            "help": "for each instance; 1 by default"}),
    ("prove", "--reference", {"metavar": "CSV", "help": "a CSV with instance and makespan: where no run is as short, "
                                                  "only shorter orders are searched for"}),
    ("prove", "--jobs", {"metavar": "N", "type": number(1, 10 ** 6),
                         "help": "N tasks at once, by GNU parallel, which gets the further options"}),
    ("prove", "--slurm", {"action": "store_true", "help": "as arrays of N tasks; sbatch gets the further options"}),
    ("prove", "--round", {"metavar": "S", "type": number(1, 10 ** 6), "default": 60,
                          "help": "how long the tasks of a round take; 60 seconds by default"}),
    ("prove", "--verify", {"metavar": "FILE", "help": "search what this proof file lists again"}),
    ("prove", "--share", {"metavar": "I/N", "type": share, "default": (1, 1),
                          "help": "with --verify: only the I-th of N shares"}),
    ("prove", "--instances", {"metavar": "FOLDER", "type": pathlib.Path,
                              "help": "with --verify: the folder of the instance's file"}),
    ("run", "--sshloginfile", {"metavar": "FILE", "help": "a file with the machines for GNU parallel"}),
    ("slurm", "--tasks", {"metavar": "N", "type": number(1, 10 ** 9), "help": "the most tasks of the array"}),
    ("slurm", "--dry-run", {"action": "store_true", "help": "print the call of sbatch"}),
    ("audit", "table", {"metavar": "TABLE", "help": "a CSV, workbook or LaTeX file with the columns instance (or "
                                 "problem), makespan (or Cmax) and order (or sequence, permutation, Reihenfolge), or a "
                                 "folder or zip archive of such files or of orders"}),
    ("audit", "--instances", {"metavar": "FOLDER", "type": pathlib.Path, "help": "the folder of the instance files"}),
    ("audit", "--layout", {"choices": ("taillard", "orlib", "matrix"), "help": "the layout of all files"}),
    ("audit", "--first", {"type": int, "choices": (0, 1), "help": "the number of the first job in all orders"}),
    ("audit", "--column", {"metavar": "ROLE=NAME", "action": "append", "default": [],
                           "help": "the name of a column, as order=\"Best found\""}),
    ("audit", "--dry-run", {"action": "store_true", "help": "print how each column and instance is read"}),
    ("audit", "--csv", {"metavar": "CSV", "help": "write the verdict on each order"}),
    ("audit", "--best", {"metavar": "FILE", "help": "a table of the best orders of Taillard's instances, such as "
                         "taillard_orders.csv of the package: put shorter ones into it"}),
    ("report", "--format", {"choices": ("png", "svg", "pdf"), "default": "png", "help": "the format of the plots"}),
    ("report", "--reference", {"metavar": "CSV", "help": "a CSV with instance, makespan and source"}),
    ("report", "--width", {"metavar": "INCHES", "type": inches, "help": "the width of the plots, in inches"}),
    ("report", "--dpi", {"metavar": "DPI", "type": number(20, 1200), "default": 130, "help": "dots per inch"}),
    ("report", "--no-title", {"action": "store_true", "help": "draw no titles"}),
    ("report", "csv", {"metavar": "CSV", "nargs": "+", "help": "the CSV of the runs of a method"}),
    ("taillard report", "folder", {"metavar": "FOLDER", "type": pathlib.Path, "help": "where the files are written"})]


def command_line() -> CommandLine:
    """Returns the parser of the command line."""
    parser = CommandLine("pfs-experiments", description="Many searches, audited, in one CSV, and reports of it.")
    parser.add_argument("--version", action=ShowVersion)
    commands = parser.add_subparsers(dest="command", required=True, metavar="COMMAND")
    for name, (module, text) in COMMANDS.items():
        is_exact = name in ("run", "slurm", "prove")
        made = commands.add_parser(name, help=text, description=text, allow_abbrev=not is_exact)
        made.set_defaults(module=module)
        for of, argument, options in ARGUMENTS:
            if name in of.split():
                made.add_argument(argument, **options)
    return parser


def command() -> int:
    """Runs the command of the command line, and returns its exit status."""
    parser = command_line()
    args, options = parser.parse_known_args()
    args.options = options
    if options and args.command not in ("run", "slurm") and not (args.command == "prove" and args.jobs):
        parser.error(f"unrecognized arguments: {' '.join(options)}")
    if args.command == "prove" and (args.csv is None) == (args.verify is None):
        parser.error("name a CSV, or a proof file by --verify")
    for module in ("matplotlib", "pandas", "scipy") if args.command == "report" else ():
        optional(module, "a report")
    status: int = vars(importlib.import_module(f"pfs.experiments.{args.module}"))[args.command](args)
    return status


def main() -> int:
    """Runs a command, and returns its exit status. An interruption of the start prints no traceback, and printed file
    names may contain bytes that are not UTF-8."""
    signal.signal(signal.SIGINT, signal.SIG_DFL)
    for stream in (sys.stdout, sys.stderr):
        if isinstance(stream, io.TextIOWrapper):
            stream.reconfigure(errors="backslashreplace")
    return run(" ".join(["pfs-experiments", *(word for word in sys.argv[1:2] if word in COMMANDS)]), command)


if __name__ == "__main__":
    sys.exit(main())
