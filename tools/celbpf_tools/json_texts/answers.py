"""What the program has to answer to a review with a namespace and params (docs/POLICIES.md)."""

from dataclasses import dataclass
from typing import Any, Optional

from .reading import NotJson, document_of, has_other, size_of, written

CHARGE = 16_777_216
# denies if object and oldObject are equal, and if params and namespaceObject are
POLICY = (
    b'{"apiVersion":"admissionregistration.k8s.io/v1","kind":"ValidatingAdmissionPolicy","spec":{"validations":['
    b'{"expression":"object != oldObject","message":"one"},'
    b'{"expression":"params != namespaceObject","message":"two"}]}}'
)


@dataclass
class Case:
    """A review and other documents, as bytes; None if there is none."""

    review: bytes
    namespace: Optional[bytes] = None
    params: Optional[bytes] = None


@dataclass
class Answer:
    """The five roots as texts and the uid, or a refusal."""

    refusal: str = ""
    uid: str = ""
    roots: tuple[Any, ...] = ()

    def lines(self) -> str:
        """What a session says of `v 4` to `v 8`."""
        return "".join(f"value {place} {text}\n" for place, text in enumerate(self.roots, 4))

    def response(self) -> str:
        """What `review` prints."""
        texts = [text for text, a, b in (("one", 0, 1), ("two", 2, 3)) if self.roots[a] == self.roots[b]]
        denied: dict[str, Any] = {"allowed": False, "status": {"code": 422, "message": "; ".join(texts), "reason": "Invalid"}}
        said: dict[str, Any] = {**(denied if texts else {"allowed": True}), "uid": self.uid}
        head = {"apiVersion": "admission.k8s.io/v1", "kind": "AdmissionReview"}
        return written({**head, "response": said}) + "\n"


def request_of(document: Any) -> Any:
    """The request of a review; None if the document is none."""
    if not isinstance(document, dict) or document.get("apiVersion") != "admission.k8s.io/v1":
        return None
    if document.get("kind") != "AdmissionReview" or not isinstance(document.get("request"), dict):
        return None
    request = document["request"]
    return request if isinstance(request.get("uid"), str) else None


def given(document: Optional[bytes]) -> Any:
    return None if document is None else document_of(document)


def is_root(value: Any) -> bool:
    """Whether a value may be a root."""
    return (value is None or isinstance(value, dict)) and not has_other(value)


def answer(case: Case) -> Answer:
    """The answer, by the first refusal that there is."""
    try:
        request = request_of(document_of(case.review))
    except NotJson:
        request = None
    if request is None:
        return Answer("N2")
    try:
        namespace, params = given(case.namespace), given(case.params)
    except NotJson:
        return Answer("N3")
    rest = {key: value for key, value in request.items() if key not in ("object", "oldObject")}
    roots = (request.get("object"), request.get("oldObject"), params, namespace, rest)
    for root, refusal in zip(roots, ("N2", "N2", "N3", "N3", "N2")):
        if not is_root(root):
            return Answer(refusal)
    if sum(map(size_of, roots)) > CHARGE:
        return Answer("N2")
    return Answer("", request["uid"], tuple(map(written, roots)))
