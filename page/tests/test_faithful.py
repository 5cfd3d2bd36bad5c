"""The page's program answers as the native one, byte by byte and status by status."""

from __future__ import annotations

import base64
import hashlib

import pytest

from cases import Call, answered, example_calls, hostile_calls, native, stored_cases
from drive.browser import Browser

pytestmark = pytest.mark.faithful

CALL = """
const bytes = text => Uint8Array.from(atob(text), letter => letter.charCodeAt(0));
const text = all => {
  let out = "";
  for (let k = 0; k < all.length; k += 8192) out += String.fromCharCode(...all.subarray(k, k + 8192));
  return btoa(out);
};
const answers = [];
for (const [words, input] of values[0]) {
  const call = { words: words.map(bytes), input: bytes(input), want: "bytes" };
  const answer = await sigma.engine.call(call);
  answers.push([text(answer.data), answer.err, answer.status, answer.failure]);
}
return answers;
"""
LONG = """
const answer = await sigma.engine.call({ words: values[0], input: values[1], want: "bytes" });
const sum = new Uint8Array(await crypto.subtle.digest("SHA-256", answer.data));
const hex = Array.from(sum, each => each.toString(16).padStart(2, "0")).join("");
return [answer.status, answer.written, hex, answer.memory];
"""
MANY_NOTES = """model MANY;
var N : 0..1000000000 = 0;
var QUEUE : 0..9 clip = 0;
var X : 0..2 = 0;
watch N, QUEUE;
vertex TICK {
  set N := N + 1;
  draw X from 1 in 0..2;
  set QUEUE := QUEUE + X - 1;
  schedule TICK after 1;
}
end
"""


def packed(data: bytes) -> str:
    """Return bytes as a script can hold them."""
    return base64.b64encode(data).decode()


def differences(page: Browser, calls: list[Call]) -> list[str]:
    """Return the calls whose answers aren't those that are wanted; they go to the page some at a time."""
    wrong: list[str] = []
    while calls:
        batch = [calls.pop()]
        while calls and len(batch) < 200 and sum(len(it.given) for it in batch) < 6_000_000:
            batch.append(calls.pop())
        asked = [[[packed(word) for word in it.words], packed(it.given)] for it in batch]
        for call, (output, line, status, failure) in zip(batch, page.js(CALL, asked), strict=True):
            wanted = (call.output, call.line.decode("utf-8", "replace"), call.status)
            if (base64.b64decode(output), line, status) != wanted:
                wrong.append(f"{call.name}: status {status} {failure} for {call.status}, {line!r}")
    return wrong


def test_the_cases(page: Browser) -> None:
    """All of the folder `cases`."""
    cases = stored_cases()
    assert len(cases) > 1500
    assert differences(page, cases) == []


def test_the_examples(page: Browser, program: str) -> None:
    """Each example with each command."""
    assert differences(page, answered(program, example_calls(program))) == []


def test_hostile_texts(page: Browser, program: str) -> None:
    """Texts of up to 4 MiB, and longer ones."""
    assert differences(page, answered(program, hostile_calls())) == []


def test_an_output_of_more_than_100_mb(page: Browser, program: str) -> None:
    """It is the same, and takes less than 1 GiB."""
    words = "run --until 4500000 --seed 1 --events 6000000".split()
    native_words = tuple(word.encode() for word in words)
    output, _, status = native(program, native_words, MANY_NOTES.encode())
    assert len(output) > 100_000_000
    got = page.js(LONG, words, MANY_NOTES)
    assert got[:3] == [status, len(output), hashlib.sha256(output).hexdigest()]
    assert got[3] < 2**30


def test_memory_that_ends(page: Browser) -> None:
    """Where memory ends, the program ends with its status and its line, and the next call is answered."""
    names = [f"P{k}" for k in range(16)]
    edges = f"  schedule W({', '.join(['1'] * 16)}) after 1000000000;\n" * 100
    variables = "".join(f"var {name} : 0..1 = 0;\n" for name in names)
    grow = f"version 2;\nmodel GROW;\n{variables}vertex V {{\n  schedule V after 1;\n{edges}}}\n"
    grow += f"vertex W({', '.join(names)}) {{\n}}\nend\n"
    code = """const answer = await sigma.engine.call({ words: values[0], input: values[1] });
    return [answer.status, answer.err, answer.failure, answer.memory];"""
    words = f"run --until 100000000 --seed 1 --events {2**40}".split()
    status, line, failure, memory = page.js(code, words, grow)
    assert [status, line, failure] == [5, "sigma: out of memory\n", ""]
    assert memory > 2**30
    asked = "return (await sigma.engine.call({ words: ['check'], input: values[0] })).out"
    assert page.js(asked, "model X;\nvertex A {\n}\nend\n") == "accepted X\n"
