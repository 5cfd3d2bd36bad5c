"""Events are copied, cut and pasted by the keys that everyone knows, and the clipboard holds model text."""

from __future__ import annotations

from conftest import wait_for_model
from drive.browser import Browser
from test_graph import paper
from test_truth import event, text
from waits import ACCEPTED

NOTE = "(document.querySelector('#notes .note')?.textContent ?? '')"
EVENTS = "sigma.store.shown.vertices.map(each => each.name).join(' ')"


def pick(page: Browser, *names: str) -> None:
    """Pick these events by the mouse."""
    page.click(event(names[0]))
    for name in names[1:]:
        page.click(event(name), held="Shift")
    page.until("[sigma.app.picked?.name, ...sigma.app.more].includes(values[0])", names[-1])


def copy(page: Browser, *names: str) -> None:
    """Copy these events by keys."""
    pick(page, *names)
    with page.becomes(f"{NOTE}.includes('copied')"):
        page.chord("Control", "c")


def edges(page: Browser, name: str) -> str:
    """Return where the edges of an event lead."""
    code = (
        "return sigma.store.shown.vertices.find(each => each.name === values[0])"
        ".edges.map(edge => edge.target).join(' ')"
    )
    return str(page.js(code, name))


def test_copies_have_edges_among_themselves_and_are_one_step(page: Browser) -> None:
    """SERVE1 leads to LEAVE1 and back, they lie on no other event, and one Undo takes both."""
    before = text(page)
    copy(page, "SERVE", "LEAVE")
    with page.becomes(f"{ACCEPTED} && ({EVENTS}).endsWith('SERVE1 LEAVE1')"):
        page.chord("Control", "v")
    assert (edges(page, "SERVE1"), edges(page, "LEAVE1")) == ("LEAVE1", "SERVE1")
    page.until("document.querySelector('.stage-pane [data-part=\"event:LEAVE1\"]')")
    assert page.js("return sigma.app.more.join(' ')") == "SERVE1 LEAVE1"
    over = page.js(
        "const all = [...sigma.app.canvas.scene.nodes.values()].map(node => node.box);"
        "return all.some((a, i) => all.some((b, k) => k > i"
        " && Math.abs(a.x - b.x) * 2 < a.width + b.width"
        " && Math.abs(a.y - b.y) * 2 < a.height + b.height))"
    )
    assert not over
    # The two lie beside each other as those that they were copied from.
    way = page.js(
        "const { nodes } = sigma.app.canvas.scene, at = name => nodes.get(name).box;"
        "return ['', '1'].map(k => [at('LEAVE' + k).x - at('SERVE' + k).x,"
        " at('LEAVE' + k).y - at('SERVE' + k).y])"
    )
    assert way[0] == way[1]
    with page.becomes("sigma.store.doc.text === values[0]", before):
        page.chord("Control", "z")


def test_duplicate_copies_as_paste_does(page: Browser) -> None:
    """Ctrl+D needs no clipboard."""
    pick(page, "SERVE", "LEAVE")
    with page.becomes(f"{ACCEPTED} && ({EVENTS}).endsWith('SERVE1 LEAVE1')"):
        page.chord("Control", "d")
    assert edges(page, "SERVE1") == "LEAVE1"


def test_cut_events_come_back_by_their_names(page: Browser) -> None:
    """Cut takes them away, Paste brings them back; edges from others to them are gone."""
    pick(page, "SERVE", "LEAVE")
    with page.becomes(f"{ACCEPTED} && {EVENTS} === 'OPEN ARRIVE CLOSE'"):
        page.chord("Control", "x")
    assert edges(page, "ARRIVE") == "ARRIVE"
    with page.becomes(f"{ACCEPTED} && {EVENTS} === 'OPEN ARRIVE CLOSE SERVE LEAVE'"):
        page.chord("Control", "v")
    assert edges(page, "LEAVE") == "SERVE"


def test_events_go_to_another_model_with_what_they_use(page: Browser) -> None:
    """Variables are declared there; the edge to an event that isn't there is left out, and told."""
    copy(page, "LEAVE")
    with page.becomes(f"{ACCEPTED} && sigma.store.shown.name === 'POLLING'"):
        page.js("sigma.open_example('polling')")
    wait_for_model(page)
    with page.becomes(f"{ACCEPTED} && ({EVENTS}).endsWith(' LEAVE')"):
        page.chord("Control", "v")
    assert edges(page, "LEAVE") == ""
    told = page.until(f"{NOTE}.includes('pasted') && {NOTE}")
    assert "1 edge left out: there is no SERVE here" in told
    declared = page.js("return sigma.store.shown.vars.map(each => each.name)")
    assert {"QUEUE", "IDLE"} <= set(declared)


def test_events_are_pasted_on_an_empty_page(page: Browser) -> None:
    """A model is made around them."""
    copy(page, "SERVE", "LEAVE")
    with page.becomes("sigma.store.verdict.state === 'empty'"):
        page.js("sigma.command('new')")
    with page.becomes(f"{ACCEPTED} && {EVENTS} === 'SERVE LEAVE'"):
        page.chord("Control", "v")


def test_the_clipboard_holds_model_text(page: Browser) -> None:
    """In the text it is pasted as it is, with declarations and events."""
    copy(page, "CLOSE", "LEAVE")
    with page.becomes("sigma.store.verdict.state === 'empty'"):
        page.js("sigma.command('new')")
    page.click(".CodeMirror-lines")
    with page.becomes("sigma.store.doc.text.includes('vertex CLOSE')"):
        page.chord("Control", "v")
    pasted = text(page)
    for words in ("var QUEUE : 0..500 = 0;", "vertex LEAVE {", "cancel all ARRIVE;", "# places"):
        assert words in pasted
    assert "vertex SERVE" not in pasted and "var GAP" not in pasted


def test_other_text_is_pasted_nowhere(page: Browser) -> None:
    """The model stays, and the page says why."""
    before = text(page)
    page.chord("Control", "k")
    page.keys("hello")
    page.chord("Control", "a")
    page.chord("Control", "c")
    page.keys("Escape")
    page.js("sigma.app.canvas.keyboard.enter()")
    with page.becomes(f"{NOTE}.includes('nothing is pasted')"):
        page.chord("Control", "v")
    assert text(page) == before


def test_keys_in_a_field_are_the_fields_own(page: Browser) -> None:
    """While one types, Ctrl+C and Ctrl+V are of the typed words, and Ctrl+X deletes no event."""
    page.click(event("SERVE"))
    before = text(page)
    typed = "document.querySelector('[data-field=\"event:SERVE/params\"]').value"
    page.click('[data-field="event:SERVE/params"]')
    page.keys("IDLE")
    page.chord("Control", "a")
    page.chord("Control", "x")
    page.chord("Control", "v")
    with page.becomes(f"{typed} === 'IDLEIDLE'"):
        page.chord("Control", "v")
    page.keys("Escape")
    assert text(page) == before


def test_the_menu_copies_and_pastes_where_it_was_asked_for(page: Browser) -> None:
    """The new event lies where one pointed."""
    ask = (
        "document.querySelector(values[0]).dispatchEvent(new MouseEvent('contextmenu',"
        " { bubbles: true, cancelable: true, clientX: values[1], clientY: values[2] }))"
    )
    item = "[...document.querySelectorAll('[role=menuitem]')].find(each => each.textContent.startsWith(values[0]))"
    mark = f"{item}?.setAttribute('data-wanted', '')"
    page.js(ask, event("LEAVE"), 300, 300)
    page.js(mark, "Copy")
    with page.becomes(f"{NOTE}.includes('copied')"):
        page.click("[data-wanted]")
    # A browser asks the person before a menu reads the clipboard; here it is answered at once.
    excerpt = "vertex LEAVE {\n  set IDLE := IDLE + 1;\n}\n# places LEAVE 0,0;\n"
    page.js(
        "Object.defineProperty(navigator.clipboard, 'readText', { value: async () => values[0] })",
        excerpt,
    )
    place = paper(page, 0.12, 0.5)
    page.js(ask, ".stage-pane .graph", *place)
    page.js(mark, "Paste")
    with page.becomes(f"{ACCEPTED} && ({EVENTS}).endsWith(' LEAVE1')"):
        page.click("[data-wanted]")
    x, y = page.middle(event("LEAVE1"))
    assert abs(x - place[0]) < 3 and abs(y - place[1]) < 3
