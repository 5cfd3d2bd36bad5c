"""The files for editors: the words that they colour, and that vim goes to the place of a fault."""

from __future__ import annotations

import os
import re
import subprocess
from collections.abc import Callable
from pathlib import Path

import pytest

from support.lab import make_lab_command
from support.places import EXAMPLES, TOP
from support.program import LONGEST, Program

EDITORS = EXAMPLES / "editors"


def reserved() -> list[str]:
    """List the reserved words of the program."""
    text = (TOP / "crates/model_lex/src/words.rt").read_text()
    return sorted(re.findall(r'b"([a-z]+)"', text))


def vim_words(text: str) -> list[str]:
    """List the words in vim's colours."""
    lines = re.findall(r"^syntax keyword \S+ (.*)$", text, re.MULTILINE)
    return [word for line in lines for word in line.split() if word.islower()]


def nano_words(text: str) -> list[str]:
    """List the words in nano's colours."""
    return [word for group in re.findall(r"\((.*)\)", text) for word in re.findall("[a-z]+", group)]


def kate_words(text: str) -> list[str]:
    """List the words in Kate's colours."""
    return re.findall("<item>([a-z]+)", text)


@pytest.mark.parametrize(
    "file, words",
    [("sigma.vim", vim_words), ("sigma.nanorc", nano_words), ("sigma.xml", kate_words)],
    ids=["vim", "nano", "Kate"],
)
def test_coloured_words(file: str, words: object) -> None:
    """The words that an editor colours are the reserved ones."""
    assert callable(words)
    assert len(reserved()) > 20
    assert sorted(words((EDITORS / file).read_text())) == reserved()


def test_vim_goes_to_the_place_of_a_fault(
    program: Program, needs: Callable[[str], str], tmp_path: Path
) -> None:
    """By `:make` vim goes to the line and column of a fault, and has the message."""
    vim = needs("vim")
    parts = subprocess.run([vim, "--version"], capture_output=True, check=True).stdout.decode()
    assert "+quickfix" in parts and "+eval" in parts, "this vim is too small: it needs +eval"
    compilers = tmp_path / "vim/compiler"
    compilers.mkdir(parents=True)
    (compilers / "sigma.vim").write_bytes((EDITORS / "compiler.vim").read_bytes())
    model = tmp_path / "a model.sigma"
    model.write_text("model M;\n# \u00e9\n\tvar X : 0..9 = 10;\nvertex V { }\nend\n")
    environment = make_lab_command(tmp_path / "bin", program)
    fields = "[v:val.valid, v:val.lnum, v:val.col, v:val.text]"
    faults = f"map(filter(getqflist(), 'v:val.valid'), 'join({fields})')"
    write = f"call writefile([join([line('.'), col('.')] + {faults})], '{tmp_path}/found')"
    words = [vim, "-es", "-u", "NONE", "-N", "--cmd", f"set runtimepath^={tmp_path}/vim"]
    words += ["-c", "compiler sigma", "-c", "silent make", "-c", write, "-c", "qall!", str(model)]
    subprocess.run(
        words,
        stdin=subprocess.DEVNULL,
        capture_output=True,
        env={**os.environ, **environment},
        timeout=LONGEST,
        check=False,
    )
    assert (tmp_path / "found").read_text() == "3 17 1 3 17 initial outside\n"
