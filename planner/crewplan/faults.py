"""What ends a run, with the status that the command ends with."""

NOT_READY = 70  # a file or the engine can't be had: not proved, no kit, no program, a pipe that ended
BAD_INPUT = 1


class Fault(Exception):
    """A fault that one line tells, and what to do about it."""
    status = BAD_INPUT


class ScheduleFault(Fault):
    """A schedule that can't be read, that the engine refuses, or that has nothing to plan."""


class UnreadFault(ScheduleFault):
    """A schedule's file that isn't there, or can't be opened."""
    status = NOT_READY


class EngineFault(Fault):
    """The engine ended, or can't be started."""
    status = NOT_READY
