"""Completion in bash, fish and zsh: all commands, and of each the options that aren't given yet."""

from __future__ import annotations

import os
import subprocess
from collections.abc import Callable
from pathlib import Path

import pytest

from home.command_facts import FACTS
from support.places import EXAMPLES, TOP

SHARE = TOP / "share/completions"

# A line of words that are typed, and what may come next.
TYPED = [
    "",
    *(f"{name} --" for name in FACTS.commands),
    "run --until 5 --",
    "trial --seed 1 --vertices 7 --",
]

BASH = """. "$1/sigma.bash"
while IFS= read -r typed; do
    word=${typed##* } COMP_WORDS=(sigma ${typed% *} "$word")
    [ -n "$typed" ] || COMP_WORDS=(sigma "")
    COMP_CWORD=$((${#COMP_WORDS[@]} - 1))
    _sigma
    echo "$typed: ${COMPREPLY[*]}"
done"""
FISH = """source $argv[1]/sigma.fish
while read -l typed
    echo "$typed": (complete -C "sigma $typed" | string split -f 1 \\t)
end"""
ZSH = """zmodload zsh/zpty || exit
zpty shell zsh -f -i
zpty -w shell "PS1='at''hand '; fpath=(${(q)1} \\$fpath); autoload -U compinit; compinit -u -D
compadd() { local -a found; builtin compadd -O found \\"\\$@\\"; print -rl -- \\"<\\"\\${^found}\\">\\"; builtin compadd \\"\\$@\\" }
print"
zpty -r shell said '*athand *athand *athand *'
while IFS= read -r words; do
    zpty -w -n shell "sigma $words"$'\\t\\x15'
    zpty -w shell "print end''ed"
    zpty -r shell said '*ended*athand *'
    print -r -- "$words: ${(j: :)${(@ou)${(@M)${(f)${said//$'\\r'/}}:#<*>}}}"
done
zpty -d shell"""

CALLS = {
    "bash": ["-c", BASH, "bash", str(SHARE)],
    "fish": ["-c", FISH, str(SHARE)],
    "zsh": ["-f", "-c", ZSH, "zsh", str(SHARE)],
}


def wanted(typed: str) -> set[str]:
    """Say what may come next, by share/commands."""
    words = typed.split()
    if not words:
        return set(FACTS.commands)
    return {f"--{name}" for name in FACTS.commands[words[0]].taken} - set(words)


@pytest.mark.parametrize("shell", CALLS)
def test_completion(shell: str, needs: Callable[[str], str], tmp_path: Path) -> None:
    """After each line, the shell offers what may come next and nothing else."""
    ran = subprocess.run(
        [needs(shell), *CALLS[shell]],
        input="".join(f"{typed}\n" for typed in TYPED).encode(),
        capture_output=True,
        env={**os.environ, "HOME": str(tmp_path), "TERM": "xterm"},
        timeout=300,
        check=False,
    )
    lines = ran.stdout.decode().splitlines()
    assert len(lines) == len(TYPED), ran.stderr.decode()
    told = {}
    for line in lines:
        typed, _, offered = line.partition(":")
        told[typed.strip()] = set(offered.replace("<", "").replace(">", "").split())
    assert told == {typed.strip(): wanted(typed) for typed in TYPED}


def test_files_after_a_redirection(needs: Callable[[str], str]) -> None:
    """In bash a file may come after `<`."""
    script = """. "$1/sigma.bash"
        COMP_WORDS=(sigma check "<" ba) COMP_CWORD=3
        _sigma
        printf "%s\\n" "${COMPREPLY[@]}" """
    ran = subprocess.run(
        [needs("bash"), "-c", script, "bash", SHARE], capture_output=True, cwd=EXAMPLES, check=True
    )
    assert sorted(ran.stdout.decode().split()) == sorted(path.name for path in EXAMPLES.glob("ba*"))
