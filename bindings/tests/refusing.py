"""What the tests of Python share: a call that is refused, and labels as one list."""


def refused(kind, call, *words, status=None, place=None, says=(), **more):
    """The words of a refusal of that kind (and status, place and words), which must come."""
    try:
        call(*words, **more)
    except kind as error:
        assert status is None or error.status == status, (error, error.status)
        assert place is None or error.place == place, (error, error.place)
        for part in [says] if isinstance(says, str) else says:
            assert part in str(error), (part, str(error))
        return str(error)
    raise AssertionError(f"no {kind.__name__}")


def flat(labels):
    """Labels of any shape as one list."""
    return [int(one) for one in (labels.ravel() if hasattr(labels, "ravel") else labels)]
