"""What the refusal of a policy means, in words."""

from ..asking.refused import MEANINGS

NO_KIND = "the kind of its params is not among the inputs: give a definition of it, or an object"
NO_NAMESPACE = "a match condition reads namespaceObject, which is null there in a cluster: write dyn(null)"
NO_ANNOTATIONS = "audit annotations are not supported yet: leave them out, and their values are not computed"
NAMES_KEY = "; `vapctl lint` names the key"
# the number of words of a refusal of an expression before its place, as in `K6 validation 0 P4 at 7`
EXPRESSION = 4


def words_of(refusal: str) -> str:
    """A refusal of a policy, such as `K6 validation 0 P4 at 7` or `K6 variable 1 W5 url`, in words, with its code."""
    parts = refusal.split()
    if parts[:1] == ["K6"] and len(parts) >= EXPRESSION:
        _, kind, place, cause, *more = parts
        where = f"{'message of validation' if kind == 'message' else kind} {place}"
        name = f" {more[0]}" if more and more[0] != "at" else ""
        after = f" at byte {more[-1]}" if "at" in more else ""
        return f"{where}: {MEANINGS.get(cause, 'it is refused')}{after} ({cause}{name})"
    if parts == ["K3", "auditAnnotations"]:
        return f"{NO_ANNOTATIONS} (K3)"
    key = NAMES_KEY if parts[:1] == ["K3"] else ""
    return f"{MEANINGS[parts[0]]} ({refusal}){key}" if parts and parts[0] in MEANINGS else refusal


# what `celbpf` says of documents and runs
OTHERS = {
    "N2": "the review is refused: it is none, or has a number that is no 64-bit int, or is too large",
    "N3": "the namespace or the params are refused: they are no object, or have a number that is no 64-bit int",
    "N4": "the program takes more steps than are allowed",
    "N5": "the program takes more memory than is allowed",
    "L1": "the image is refused: it has fewer than 16 bytes",
    "L2": "the image is refused: it does not begin as an image",
    "L3": "the image is refused: it has no slots, or more than 65,536",
    "L4": "the image is refused: it has more than 1,048,576 bytes of constants",
    "L5": "the image is refused: its file is longer or shorter than its head tells",
    "memory": "memory ran out",
}


def meaning_of(refusal: str) -> str:
    """What a refusal means, without its code; empty if it is not known."""
    words = OTHERS[refusal] if refusal in OTHERS else words_of(refusal).removesuffix(NAMES_KEY)
    return words.rpartition(" (")[0] if words.endswith(")") else "" if words == refusal else words


def words_of_refusal(line: str) -> str:
    """What `celbpf` says on standard error, in words."""
    if line.startswith(("N1 ", "K", "G")):
        words = words_of(line.removeprefix("N1 "))
        return f"the policy is refused: {words.removesuffix(NAMES_KEY)}; `vapctl lint` shows all refusals"
    return f"{OTHERS[line]} ({line})" if line in OTHERS else line


def why_blocked(blocked: str, no_params: str = NO_KIND) -> str:
    """Why the gatekeeper does not decide a policy of a cluster, by what it says of it at its start; `no_params` is said if the
    kind of its params is not known.
    """
    code, _, refusal = blocked.partition(" ")
    if code == "C7":
        return NO_NAMESPACE if refusal == "namespaceObject" else words_of(refusal)
    return f"{no_params} (C8)" if code == "C8" else blocked
