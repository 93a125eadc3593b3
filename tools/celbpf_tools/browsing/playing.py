"""The page in a browser: gives it cases, and tells what it shows of them."""

import json
import time
from collections.abc import Iterator
from pathlib import Path
from typing import Any
from urllib.parse import urlencode

from .browser import Page

PATIENCE = 60
PAUSE = 0.02
# what the page shows of a case
SHOWN = """(() => {
  const text = (id) => document.getElementById(id).textContent;
  return { outcome: text("outcome"), message: text("message"), status: text("status"), troubles: text("troubles"),
    parts: document.querySelectorAll("#parts .part").length, at: text("at"), words: text("words") };
})()"""
STATE = "document.documentElement.dataset"


def waited(page: Page) -> dict[str, Any]:
    """What the page shows, once it shows all of a case."""
    end = time.monotonic() + PATIENCE
    while time.monotonic() < end and page.value(f"{STATE}.state") != "done":
        time.sleep(PAUSE)
    return page.value(SHOWN)


def opened(page: Page, file: Path) -> Iterator[str]:
    """What a page that is opened says on the console, and what it asks for beside itself."""
    page.errors.clear()
    page.requests.clear()
    page.open(file)
    waited(page)
    yield from told(page, file)


def told(page: Page, file: Path) -> Iterator[str]:
    """What a page has said on the console so far, and what it has asked for."""
    yield from (f"the console says {one}" for one in page.errors)
    own = (file.resolve().as_uri(), "blob:", "data:")
    yield from (f"it asks for {one}" for one in page.requests if not one.startswith(own))
    page.errors.clear()


def chosen(page: Page, example: str, review: str) -> dict[str, Any]:
    """What the page shows of an example, which its address names."""
    address = json.dumps(f"#{urlencode({'example': example, 'review': review})}")
    page.value(f"{STATE}.state = 'busy'; location.hash = {address}; 0")
    return waited(page)


def given(page: Page, **fields: str) -> dict[str, Any]:
    """What the page shows once these fields have these texts."""
    for field, text in fields.items():
        page.value(f"document.getElementById({json.dumps(field)}).value = {json.dumps(text)}; 0")
    page.value(f"{STATE}.state = 'busy'; document.getElementById('policy').dispatchEvent(new Event('input')); 0")
    return waited(page)


def first_decision(page: Page) -> int:
    """The milliseconds from the opening of the page to its first decision."""
    return page.value(f"Number({STATE}.decided)")
