"""Why a policy or a review is refused."""


class Refused(Exception):
    """A refusal; `text` is what stands behind `celbpf: ` for it."""

    def __init__(self, text: str):
        super().__init__(text)
        self.text = text
