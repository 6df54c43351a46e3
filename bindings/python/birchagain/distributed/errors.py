"""Why a cluster does not answer."""


class PartitionError(RuntimeError):
    """A partition, whose number is `partition`, could not be made, or gives no answer."""

    def __init__(self, partition: int, said: str) -> None:
        super().__init__(partition, said)
        self.partition, self.said = partition, said

    def __str__(self) -> str:
        return f"partition {self.partition}: {self.said}"


class LogError(RuntimeError):
    """The log of deletions cannot be read, is another cluster's, or is held by another coordinator."""
