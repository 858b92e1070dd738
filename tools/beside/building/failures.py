"""Why a build doesn't come to its end."""


class Failure(Exception):
    """The build can't go on, for the reason that is told, of one line or more."""
