"""Exact arithmetic."""
from __future__ import annotations


def ceil_div(a: int, b: int) -> int:
    """The quotient, rounded up."""
    return -(-a // b)


def log2(n: int) -> int:
    """The k with 2^k <= n < 2^(k+1); n is at least 1."""
    return n.bit_length() - 1


def pow2_up(n: int) -> int:
    """The least power of two that is at least n; n is at least 1."""
    return 1 << (n - 1).bit_length()


def towards_zero(a: int, b: int) -> int:
    """The quotient, rounded towards zero; b is above 0."""
    return a // b if a >= 0 else -(-a // b)


def sat_sub(a: int, b: int) -> int:
    """The difference, or 0 where it is below zero."""
    return max(a - b, 0)
