"""Why the shell ends before it is asked to: each fault has a line for standard error and an exit status."""


class Fault(Exception):
    """What ends the shell; its text is the line."""

    status = 1


class EdgeFault(Fault):
    """A socket or the TUN device can't be had."""

    status = 3


class CoreFault(Fault):
    """The core can't be started, or ended by itself."""

    status = 4


class AnswerFault(Fault):
    """The core says less than one entry a line, or what is no entry."""

    status = 5


class RecordFault(Fault):
    """The record can't be written, or can't be gone on with."""

    status = 6


class InstructionFault(Fault):
    """The file of instructions has a line that is none."""

    status = 7


class AuditFault(Fault):
    """The audit beside the core can't be started."""

    status = 8
