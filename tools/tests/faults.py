"""For the tests of what must fail."""


def fault_of(kind, call, *words):
    """The exception of this kind in which a call ends."""
    try:
        call(*words)
    except kind as fault:
        return fault
    raise AssertionError(f"no {kind.__name__} of {words!r}")
