"""What a user does with the page: mends a policy that is refused, keeps a case as a link and as a file, and gives hostile texts."""

import json
from collections.abc import Iterator
from pathlib import Path
from typing import Any

from .browser import Page
from .playing import given, opened, waited

HEAD = "apiVersion: admissionregistration.k8s.io/v1\nkind: ValidatingAdmissionPolicy\nmetadata: {name: tried}\nspec:\n  validations:\n"
REFUSED = f"{HEAD}  - expression: objct.spec.replicas <= 3\n"
MENDED = f"{HEAD}  - expression: object.spec.replicas <= 3\n"
MANIFEST = "apiVersion: apps/v1\nkind: Deployment\nmetadata: {name: web}\nspec: {replicas: 5}\n"
PLACE = "document.querySelector('#troubles button.place')"
# the text of a file that the page gives
KEPT = """new Promise((done) => {
  const made = URL.createObjectURL;
  URL.createObjectURL = (blob) => { URL.createObjectURL = made; blob.text().then(done); return made(blob); };
  document.getElementById("keep").click();
})"""


def policy(expression: str) -> str:
    return f"{HEAD}  - expression: {json.dumps(expression)}\n"


def review(value: Any) -> str:
    return json.dumps({"apiVersion": "admission.k8s.io/v1", "kind": "AdmissionReview", "request": {"uid": "1", "object": value}})


def loops(depth: int) -> str:
    """Loops in loops over one list, under an optional value, so that they are asked piece by piece."""
    inner = "object.?n.orValue(0) >= 0"
    for place in range(depth):
        inner = f"object.l.all(x{place}, {inner})"
    return inner


def mending_faults(page: Page) -> Iterator[str]:
    """What is wrong as a user mends a policy by the page's words."""
    shown = given(page, policy=REFUSED, review=MANIFEST, namespace="", params="")
    if shown["outcome"] != "refused" or "`objct`" in shown["troubles"] or "objct is no name here" not in shown["troubles"]:
        yield f"a refusal is shown as {shown}"
    page.value(f"{PLACE}.click()")
    place = page.value("[document.activeElement.id, document.activeElement.selectionStart]")
    if place != ["policy", REFUSED.index("objct")]:
        yield f"the place of a refusal is shown as {place}"
    shown = given(page, policy=MENDED)
    if (shown["outcome"], shown["message"]) != ("denied", "failed expression: object.spec.replicas <= 3"):
        yield f"the mended policy is shown as {shown}"
    shown = given(page, review=MANIFEST.replace("5", "2"))
    if shown["outcome"] != "allowed":
        yield f"the mended manifest is shown as {shown}"
    shown = given(page, review="a: b: c\n")
    if "review, line 1, column 5" not in shown["troubles"]:
        yield f"a fault of YAML is shown as {shown}"


def keeping_faults(page: Page, folder: Path) -> Iterator[str]:
    """What is wrong with a link and a file that keep a case."""
    given(page, policy=MENDED, review=MANIFEST)
    page.value("new Promise((done) => setTimeout(done, 600))")
    link, kept = page.value("location.href"), folder / "kept.html"
    kept.write_text(page.value(KEPT), encoding="utf-8")
    yield from (f"the kept file: {one}" for one in opened(page, kept))
    found = page.value("[document.getElementById('outcome').textContent, document.getElementById('policy').value]")
    if found != ["denied", MENDED]:
        yield f"the kept file shows {found}"
    page.value("location.href = 'about:blank'; 0")
    page.call("Page.navigate", url=link)
    page.value("new Promise((done) => setTimeout(done, 1500))")
    shown = waited(page)
    if (shown["outcome"], page.value("document.getElementById('policy').value")) != ("denied", MENDED):
        yield f"the link shows {shown}"


def hostile_rows() -> Iterator[tuple[str, str, str]]:
    """Hostile policies and reviews, each with what it is."""
    yield "4,094 signs", policy("!" * 4094 + "object.a"), review({"a": True})
    yield "a policy nested deep", "[" * 100_000, review({})
    yield "a review nested deep", policy("true"), f'{{"kind": "AdmissionReview", "request": {"[" * 100_000}'
    yield "a text of five million bytes", policy("size(object.a) == 5000000"), review({"a": "x" * 5_000_000})
    yield "loops that take too long", policy(loops(6)), review({"l": list(range(30)), "n": 1})


def hostile_texts_faults(page: Page) -> Iterator[str]:
    """Which hostile texts give neither an answer nor a message, or spoil the next decision."""
    for what, policy_text, review_text in hostile_rows():
        shown = given(page, policy=policy_text, review=review_text)
        told = shown["troubles"] or shown["outcome"] in ("allowed", "denied") or "stopped" in shown["outcome"]
        if not told or "fault" in shown["status"] + shown["outcome"]:
            yield f"{what}: {shown}"
        shown = given(page, policy=MENDED, review=MANIFEST)
        if shown["outcome"] != "denied" or not shown["parts"]:
            yield f"after {what}: {shown}"
