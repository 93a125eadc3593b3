"""What a page shows as its case changes: nothing of the case before, and no other case than its address has."""

import json
from collections.abc import Iterator
from pathlib import Path
from typing import Any

from .browser import Page
from .playing import SHOWN, given, waited
from .trying import HEAD, MANIFEST, MENDED

WIDTHS = (320, 390, 1280)
STOPPED = "not decided: stopped after ten seconds"
VARIABLES = "  variables:\n  - {name: v, expression: object.spec.replicas}\n"
VARIABLE = HEAD.replace("  validations", f"{VARIABLES}  validations") + "  - expression: variables.v <= 3\n"
WRONG = f"{HEAD}  - expression: object.spec.missing <= 3\n"
THREE = f"{HEAD}  - expression: a\n  - expression: b\n  - expression: c\n"
# a worker that is not asked to decide, so that it does not answer
DEAF = """Worker.prototype.post ??= Worker.prototype.postMessage;
Worker.prototype.postMessage = function (given) { if (given.name !== "decide") this.post(given); }; 0"""
HEARING = "Worker.prototype.postMessage = Worker.prototype.post; 0"
# which outcomes are shown after a case is changed while it is decided
OUTCOMES = """new Promise((done) => {
  const seen = [], heading = document.getElementById("outcome"), policy = document.getElementById("policy");
  new MutationObserver(() => seen.push(heading.textContent)).observe(heading, { childList: true });
  document.getElementById("decide").click();
  policy.value = %s;
  policy.dispatchEvent(new Event("input"));
  setTimeout(() => done(seen), 2000);
})"""
HIDDEN = "['why', 'run', 'debugger', 'response'].every((id) => document.getElementById(id).hidden)"
POLICY = "document.getElementById('policy')"
TOP = f"Math.round({POLICY}.getBoundingClientRect().top)"
PAUSE = "new Promise((done) => setTimeout(done, 600))"


def visit(page: Page, address: str) -> None:
    """Goes to an address, and waits until it is loaded."""
    page.events.clear()
    page.call("Page.navigate", url=address)
    while "Page.loadEventFired" not in page.events:
        page.take()


def deciding_faults(page: Page) -> Iterator[str]:
    """What is still shown of a decision after its case has changed."""
    shown = given(page, policy=MENDED, review=MANIFEST, namespace="", params="")
    if shown["outcome"] != "denied":
        yield f"a denial is shown as {shown}"
    page.value(f"{POLICY}.dispatchEvent(new Event('input')); 0")
    shown = page.value(SHOWN)
    if (shown["outcome"], shown["message"], shown["words"]) != ("deciding..", "", ""):
        yield f"a case that has changed is shown as {shown}"
    waited(page)
    if "denied" in (seen := page.value(OUTCOMES % json.dumps(THREE))):
        yield f"after a change these outcomes are shown: {seen}"
    page.value(DEAF)
    shown = given(page, policy=MENDED)
    page.value(HEARING)
    if (shown["outcome"], shown["message"], shown["troubles"]) != (STOPPED, "", "") or not page.value(HIDDEN):
        yield f"a case that takes too long is shown as {shown}"
    if given(page, policy=MENDED)["outcome"] != "denied":
        yield "the next case is not decided"


def words_faults(page: Page) -> Iterator[str]:
    """What the words beside an outcome and the debugger lack."""
    shown = given(page, policy=WRONG, review=MANIFEST)
    if "Validation 0 is an error, which denies the request: in object.spec.missing there is no field missing." != shown["words"]:
        yield f"an error is shown as {shown}"
    page.value("document.getElementById('command').value = 'help'; document.getElementById('session').requestSubmit(); 0")
    replies = page.value(f"{PAUSE}.then(() => document.getElementById('replies').textContent)")
    if "commands: s N: N steps on" not in replies:
        yield f"an unknown command is answered {replies}"


def addresses_faults(page: Page, file: Path) -> Iterator[str]:
    """What is shown of addresses that cannot be read, and what buttons do to an address."""
    shown = given(page, policy=VARIABLE, review=MANIFEST)
    page.value(PAUSE)
    link = page.value("location.hash")
    page.value("document.querySelector('button[data-part]').click(); 0")
    found = page.value("[location.hash, document.activeElement.id]")
    if found != [link, "variable-0"]:
        yield f"the button of a variable leads from {link} to {found} of {shown}"
    for address in ("#case=garbage", link[:200], "#example=nothing"):
        for visited in ("about:blank", f"{file.resolve().as_uri()}{address}"):
            visit(page, visited)
        yield from broken_faults(address, waited(page), page.value(f"[location.hash, {POLICY}.value]"))


def broken_faults(address: str, shown: dict[str, Any], found: list[Any]) -> Iterator[str]:
    """What is wrong with what is shown of an address that cannot be read."""
    if shown["outcome"] != "not decided" or "Choose an example" not in shown["status"] or found != [address, ""]:
        yield f"the address {address} shows {shown} and {found}"


def places_faults(page: Page) -> Iterator[str]:
    """Whether the page is wider than its window, or a field moves while someone writes in it."""
    given(page, policy=VARIABLE, review=MANIFEST)
    for width in WIDTHS:
        page.look(width, 844, "light")
        wide = page.value(f"{PAUSE}.then(() => document.documentElement.scrollWidth)")
        if wide > width:
            yield f"at a width of {width} the page is {wide} wide"
    page.value(f"scrollTo(0, 0); {POLICY}.focus({{ preventScroll: true }}); 0")
    tops = []
    for text in (MENDED, THREE, MENDED, WRONG, MENDED):
        given(page, policy=text)
        tops.append(page.value(TOP))
    if len(set(tops)) > 1:
        yield f"the field moves while it is written: {json.dumps(tops)}"
    page.value("document.activeElement.blur(); 0")


def changing_faults(page: Page, file: Path) -> Iterator[str]:
    """All of these."""
    yield from deciding_faults(page)
    yield from words_faults(page)
    yield from places_faults(page)
    yield from addresses_faults(page, file)
