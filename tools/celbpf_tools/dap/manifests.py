"""The review of a launch, if the file that is given has a manifest: its object is created."""

from typing import Optional

from ..entry import Stop
from ..vapctl.checking import resources_of
from ..vapctl.inputs import Inputs
from ..vapctl.no_manifests import REVIEW
from ..vapctl.one_decision import named
from ..vapctl.requests import Asked, NoReview, Reviews
from .arguments import BadRequest


def review_of(path: str, name: Optional[str]) -> Optional[str]:
    """The text of the review that creates the object of a file, or the one of this name; `None` if the file has a review, or
    nothing that can be read, which is told where it is opened.
    """
    inputs = Inputs()
    things = inputs.things([path])
    if inputs.troubles or not things or any(one.kind == REVIEW for one in things):
        if name is not None:
            raise BadRequest("object: review has no manifests")
        return None
    try:
        thing = named(things, name, "object", "object")
        return Reviews(resources_of(things), Asked()).text(thing, "1")[1]
    except Stop as why:
        raise BadRequest(f"review: {why.line}") from why
    except NoReview as why:
        raise BadRequest(f"review: {thing.title}: {why}") from why
