"""A review, and the five roots that it gives with the documents beside it."""

from dataclasses import dataclass
from typing import Any, Optional

from . import documents
from .costs import MOST_CHARGE
from .macros import ROOTS
from .refused import Refused
from .values import size

API_VERSION = "admission.k8s.io/v1"
KIND = "AdmissionReview"
# the refusal of each root, in their order
REFUSALS = ["N2", "N2", "N3", "N3", "N2"]


@dataclass
class Review:
    """The uid of a request, the roots by name, and what they are charged."""

    uid: str
    roots: dict[str, Any]
    charge: int


def has_form(review: dict[str, Any]) -> bool:
    """Whether a document is a review with a request that has a uid."""
    if not isinstance(review, dict) or review.get("apiVersion") != API_VERSION or review.get("kind") != KIND:
        return False
    request = review.get("request")
    return isinstance(request, dict) and isinstance(request.get("uid"), str)


def read(review: bytes, namespace: Optional[bytes], params: Optional[bytes]) -> Review:
    """The review of these documents, of which the last two may be None; or the first of N2 and N3."""
    document = documents.read(review, "N2")
    if not has_form(document):
        raise Refused("N2")
    beside = [None if one is None else documents.read(one, "N3") for one in (params, namespace)]
    request = dict(document["request"])
    given = [request.pop("object", None), request.pop("oldObject", None), *beside, request]
    for value, refusal in zip(given, REFUSALS):
        if not isinstance(value, (dict, type(None))) or documents.has_other_number(value):
            raise Refused(refusal)
    charge = sum(map(size, given))
    if charge > MOST_CHARGE:
        raise Refused("N2")
    return Review(request["uid"], dict(zip(ROOTS, given)), charge)
