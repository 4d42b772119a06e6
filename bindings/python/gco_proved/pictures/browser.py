"""`python -m gco page`: the page for a browser, one file with the library in it."""
import pathlib
import webbrowser

from gco_proved.pictures.words import Wrong

PAGE = pathlib.Path(__file__).resolve().parent.parent / "gco.html"


def open_page() -> int:
    """Opens the page in the user's browser, and says where it lies."""
    if not PAGE.exists():
        raise Wrong(f"there is no {PAGE}: the wheel of a release has it, and `make web` makes it in dist/gco.html")
    print(PAGE.as_uri())
    if not webbrowser.open(PAGE.as_uri()):
        raise Wrong("no browser was found: open that file in one")
    return 0
