"""The completions of bash and zsh, each asked in its own shell: commands, options, their values, and files."""
import pathlib
import re
import shlex
import shutil
from collections.abc import Callable

import pytest
from support.files import LAYOUTS, commands
from support.library import Library
from support.needs import tool
from support.program import Program
from support.terminals import Terminal
from support.tools import TOP, output_of, with_path

SCRIPT, MANUAL = TOP / "share" / "pfs.bash", TOP / "python" / "pfs-experiments.1"
FILES = {"best", "three", "two words"}
# What is offered where each line ends, for the program and for the package's programs.
OFFERED = {
    "pfs ": set(commands()), "pfs so": {"solve"}, "pfs nothing --": set[str](),
    "pfs value --layout orlib ": FILES, "pfs check --layout orlib three b": {"best"},
    "pfs convert --to=t": {"taillard"},
    **{f"pfs {command} --": set(options) for command, (options, _) in commands().items()},
    **{f"pfs {command} {option}{sign}": LAYOUTS for command, (options, _) in commands().items()
       for option, value in options.items() if value == "L" for sign in " ="},
    "pfs-experiments ": set(re.findall(r"^\.It Cm (\w+)", MANUAL.read_text(), re.MULTILINE)),
    "pfs-experiments re": {"report"},
    "pfs-experiments check --": {"--help", "--pfs"}, "pfs-experiments report --format ": {"png", "svg", "pdf"},
    "pfs-experiments run th": {"three"},
    "pfs-gantt --": {"--help", "--critical", "--bound", "--unit", "--width", "--dpi", "--title"},
    "pfs-gantt th": {"three"},
    "pfs-web --": {"--help", *(f"-{option}" for option in re.findall(
        r"^\.It Fl (-[\w-]+)", MANUAL.with_name("pfs-web.1").read_text(), re.MULTILINE))},
    "pfs-plan --s": {"--seconds", "--seed", "--sheet", "--shift", "--schedule", "--setup"},
    "pfs-plan --decimal=": {"point", "comma"}, "pfs-plan --method ": {"solve", "iterated-greedy"},
}

# For each line: bash's words, of which the `=` of `--layout=orlib` is one. Where nothing is offered, bash offers files.
BASH = """
offer() {
    COMP_WORDS=("$@") COMP_CWORD=$(($# - 1))
    _pfs "$1"
    [ "${COMPREPLY[*]}" ] || [[ ${@: -1} == -* ]] || mapfile -t COMPREPLY < <(compgen -f -- "${@: -1}")
    printf '%s\\n' "${COMPREPLY[@]}" '='
}
"""
# Each word that is offered is written to the file `offered`, and `=` after the last one.
ZSH = """
PROMPT=
autoload -Uz compinit
compinit -u -D
compadd() {{
    if [[ ${{@[1,(i)(-|--)]}} != *-(O|A|D)\\ * ]]; then
        local -a offered
        builtin compadd -A offered "$@"
        print -rl -- $offered >> {offered}
    fi
    builtin compadd "$@"
}}
offer() {{ zle complete-word; BUFFER=; print = >> {offered} }}
zle -N offer
bindkey '^I' offer
print ready
"""


def answers(text: str) -> list[set[str]]:
    """The words of each line, without a folder's slash, the option in front of a value, and quotes."""
    return [{re.sub("^--[a-z]+=", "", word.replace("\\", "")) for word in answer.split("\n")} - {""}
            for answer in re.split("^=$", text, flags=re.MULTILINE)[:-1]]


def bash(folder: pathlib.Path, env: dict[str, str]) -> list[set[str]]:
    text = f"source {shlex.quote(str(SCRIPT))}\n{BASH}"
    for line in OFFERED:
        words = [word for part in line.split(" ") for word in re.split("(=)", part) if word or word == part]
        text += "offer " + shlex.join(words) + "\n"
    return answers(output_of(["bash", "--norc", "-c", text], folder, env=env))


def zsh(folder: pathlib.Path, env: dict[str, str]) -> list[set[str]]:
    """Zsh completes at a terminal only: so it is given one. It finds the completion in a folder of functions."""
    offered, start = folder.parent / "offered", folder.parent / "start"
    offered.touch()
    (folder.parent / "functions").mkdir()
    shutil.copy(SCRIPT, folder.parent / "functions" / "_pfs")
    start.write_text(f"fpath=({shlex.quote(str(folder.parent / 'functions'))} $fpath)\n"
                     + ZSH.format(offered=shlex.quote(str(offered))))
    with Terminal(["zsh", "-f", "-i"], folder, env=env | {"TERM": "dumb", "HOME": str(folder.parent)}) as terminal:
        terminal.write(f"source {shlex.quote(str(start))}\n")
        terminal.read_until(lambda: b"\nready" in terminal.seen, "zsh is ready")
        for number, line in enumerate(OFFERED, 1):
            terminal.write(line + "\t")
            terminal.read_until(lambda: offered.read_text().split("\n").count("=") >= number, f"the answer to {line!r}")
    return answers(offered.read_text())


@pytest.mark.seconds(10)
@pytest.mark.parametrize("shell", [bash, zsh])
def test_a_shell_offers(shell: Callable[[pathlib.Path, dict[str, str]], list[set[str]]], pfs: Program, libpfs: Library,
                        scripts: pathlib.Path, folder: pathlib.Path) -> None:
    tool(shell.__name__)
    (folder / "files").mkdir()
    for name in FILES:
        (folder / "files" / name).touch()
    env = with_path(scripts) | {"PFS_LIBRARY": str(libpfs.path)}
    env["PATH"] = f"{pfs.path.parent}:{env['PATH']}"
    assert dict(zip(OFFERED, shell(folder / "files", env), strict=True)) == OFFERED
