"""How the command ends: its exit statuses, and what is raised where it is used badly."""

DONE, REFUSED, BAD_USE = 0, 1, 2
# as a shell says it of a program that Ctrl-C, or a pipe that nobody reads any more, has ended
INTERRUPTED, CLOSED = 130, 141


class BadUse(Exception):
    """What was asked cannot be done; the message says why, in a sentence."""
