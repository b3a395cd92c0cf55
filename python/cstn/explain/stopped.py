"""How a command ends without an answer."""


class Stopped(Exception):
    """Why there is no answer, with the status."""

    def __init__(self, status: int, why: str) -> None:
        super().__init__(why)
        self.status = status
