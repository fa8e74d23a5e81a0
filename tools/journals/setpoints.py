"""What follows of a domain's limits: where writers run free, and where the control aims."""
from __future__ import annotations


def freerun(thresh: int, background: int) -> int:
    """Pages up to which no writer is held."""
    return (thresh + background) // 2


def setpoint(thresh: int, background: int, hard: int) -> int:
    """Pages at which the position ratio is one."""
    return (freerun(thresh, background) + hard) // 2
