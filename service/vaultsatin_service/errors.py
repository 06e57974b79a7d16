"""What goes wrong: what a client is told, and what is worth another try."""


class Refusal(Exception):
    """What can't be done, as a client is told by a status and a sentence. But for `Late`, nothing of it is done."""

    status = 400


class NoDocument(Refusal):
    """There is no document of that name."""

    status = 404


class Unseen(Refusal):
    """The client hasn't drawn what its lines are meant for."""

    status = 409


class TooMuch(Refusal):
    """It takes more memory, time, replies or rules than there are."""

    status = 422


class NotNow(Refusal):
    """Somebody else has to do something first."""

    status = 503


class Late(Refusal):
    """Nothing is known: it may be done, and may be asked again by the same name."""

    status = 504


class WorthAnotherTry(Exception):
    """Whoever tries again, with a new process that has done what the log has, may succeed."""


class Behind(WorthAnotherTry):
    """The log has gone on otherwise than the process."""


class Away(WorthAnotherTry):
    """The database can't be reached, or takes no writes."""


class Unfit(Exception):
    """The log lets nobody in by these words, or is of another version. Whoever begins the worker has to change that."""


class Ended(WorthAnotherTry):
    """The process has ended, for no reason that would come again."""
