"""A policy and a review whose texts would be markup or code if a page did not escape them."""

from typing import Iterator

from .browser import Page

SCRIPT = "</script><script>window.broken = 1</script>"
IMAGE = "<img src=x onerror='window.broken = 1'>"
OTHERS = ["<!--", "]]>", '" onmouseover="window.broken = 1', "&lt;b&gt;", "\u2028\u2029", "\u202egnp.exe", "\U0001f600"]
POLICY = {
    "apiVersion": "admissionregistration.k8s.io/v1",
    "kind": "ValidatingAdmissionPolicy",
    "metadata": {"name": SCRIPT},
    "spec": {
        "variables": [{"name": "v", "expression": f'object.texts + ["{SCRIPT}"]'}],
        "validations": [
            {"expression": f'variables.v.all(t, t != "{SCRIPT}") // {IMAGE}', "message": IMAGE},
            {"expression": "object.a[\"<b>\"] == '\U0001f600</script>'", "messageExpression": f'"{SCRIPT} <!--"'},
        ],
    },
}
REVIEW = {
    "apiVersion": "admission.k8s.io/v1",
    "kind": "AdmissionReview",
    "request": {
        "uid": SCRIPT,
        "object": {"texts": [IMAGE, *OTHERS, SCRIPT], "a": {"<b>": IMAGE, SCRIPT: None}, IMAGE: 1},
    },
}

# the scripts of the page, with those that hold texts
SCRIPTS = 7
# whether an element has an attribute that is code
HANDLERS = """[...document.querySelectorAll("*")].some((one) =>
  [...one.attributes].some((other) => other.name.startsWith("on")))"""


def hostile_faults(page: Page) -> Iterator[str]:
    """What of these texts became more than text."""
    if page.value("window.broken") is not None:
        yield "a text was run"
    if page.value("document.scripts.length") != SCRIPTS:
        yield "a text became a script"
    if page.value("document.querySelectorAll('img, b').length"):
        yield "a text became an element"
    if page.value(HANDLERS):
        yield "a text became an attribute"
    for text in (SCRIPT, IMAGE, "&lt;b&gt;"):
        if not page.value(f"document.body.innerText.includes({text!r})"):
            yield f"{text} is not shown"
