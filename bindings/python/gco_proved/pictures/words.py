"""What stops a command: one sentence that says what is wrong and what to do."""


class Wrong(Exception):
    """A command that cannot go on. The text is for the person who gave it."""

    status = 1


class Undecided(Wrong):
    """A command whose seeds or options do not say what is wanted."""

    status = 2


def numpy_and_pillow():
    """numpy and Pillow's Image, or a sentence that asks for them."""
    missing = []
    try:
        import numpy
    except ImportError:
        missing.append("numpy")
    try:
        from PIL import Image
    except ImportError:
        missing.append("Pillow")
    if missing:
        raise Wrong(f"pictures want {' and '.join(missing)}: pip install {' '.join(missing)}"
                    " (Debian: apt-get install python3-numpy python3-pil)")
    return numpy, Image
