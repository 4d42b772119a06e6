"""The command line, and the costs by name that --like sets."""
import argparse
from typing import Any, Dict, Optional

LIKES: Dict[str, Dict[str, Dict[str, Any]]] = {
    "restore": {
        "plain": {"smooth": "potts", "trunc": 1, "weight": 1},
        "photo": {"levels": 32, "smooth": "linear", "trunc": 8, "weight": 1},
        "impulse": {"levels": 32, "smooth": "linear", "trunc": 8, "weight": 1, "cap": 12},
    },
    "stereo": {
        "plain": {"smooth": "potts", "trunc": 1, "weight": 1, "labels": 16, "cap": 20},
        "scene": {"smooth": "linear", "trunc": 4, "weight": 8, "cap": 30},
        "flat": {"smooth": "potts", "trunc": 1, "weight": 20, "cap": 30},
    },
    "segment": {
        "plain": {"strong": 20, "weak": 5, "edge": 5},
        "edges": {"low": 128, "high": 128, "strong": 100, "weak": 3, "edge": 8},
        "greys": {"strong": 20, "weak": 5, "edge": 5},
        "colours": {"strong": 1000, "weak": 0, "rounds": 1},
    },
}


def _ranged(least: int, most: int):
    def number(text: str) -> int:
        try:
            value = int(text)
        except ValueError:
            raise argparse.ArgumentTypeError(f"{text!r} is no whole number") from None
        if not least <= value <= most:
            raise argparse.ArgumentTypeError(f"{value:,} is not from {least:,} to {most:,}")
        return value
    return number


COSTS = {
    "levels": (_ranged(2, 256), "grey levels that the picture is rounded to first"),
    "labels": (_ranged(1, 256), "disparities: the greatest one, and one more"),
    "smooth": (None, "what two neighbours' labels cost"),
    "trunc": (_ranged(1, 10000), "the most that linear and quadratic costs come to"),
    "weight": (_ranged(0, 1000), "what a pair's cost is multiplied by"),
    "cap": (_ranged(0, 10000000), "the most that a pixel costs"),
    "label_cost": (_ranged(0, 10000000), "what each grey level costs once"),
    "low": (_ranged(0, 65535), "the grey of the first segment"),
    "high": (_ranged(0, 65535), "the grey of the second segment"),
    "strong": (_ranged(0, 1000), "the weight of two pixels that are alike"),
    "weak": (_ranged(0, 1000), "the weight of two pixels that are not"),
    "edge": (_ranged(0, 65535), "how far the greys of two pixels that are alike differ"),
    "rounds": (_ranged(1, 100), "--like colours: how often colours are learned from segments (1)"),
    "chroma": (_ranged(0, 1000), "a colour picture: the weight for its colours, which stay if it is"
               " 0 (the default)"),
}
USUAL = {"restore": "photo", "stereo": "scene", "segment": "edges"}
OF_COMMAND = {
    "restore": ("levels", "smooth", "trunc", "weight", "cap", "label_cost", "chroma"),
    "stereo": ("labels", "smooth", "trunc", "weight", "cap"),
    "segment": ("low", "high", "strong", "weak", "edge", "rounds"),
}
# what is no cost, and leaves the default of --like as it is
NO_COSTS = ("labels", "levels", "rounds", "chroma")
ABOUT = {
    "restore": ("IN OUT", "takes the noise out of a picture",
                "python -m gco restore in.jpg out.png --weight 20 --levels 32"),
    "stereo": ("LEFT RIGHT OUT", "how far each pixel moved between two pictures",
               "python -m gco stereo left.png right.png out.png --labels 80"),
    "segment": ("IN SEEDS OUT", "parts a picture in two, by seeds that you draw",
                "python -m gco segment in.jpg seeds.png out.png"),
}


def _picture_options(parser: argparse.ArgumentParser, command: str) -> None:
    parser.add_argument("files", nargs="+", metavar="FILE", help=ABOUT[command][0].lower()
                        + (" (or one PGM file of both, and out)" if command != "restore" else ""))
    parser.add_argument("--like", choices=[*LIKES[command]],
                        help="costs by name; each can be set by itself beside it")
    for name in OF_COMMAND[command]:
        kind, words = COSTS[name]
        more: Dict[str, Any] = {"choices": ["potts", "linear", "quadratic"]} if kind is None \
            else {"type": kind, "metavar": "N"}
        parser.add_argument("--" + name.replace("_", "-"), help=words, **more)
    parser.add_argument("--neighbours", type=int, choices=[4, 8],
                        help="pixels beside, or across corners too (4, and 8 of --like colours)")
    if command != "stereo":
        parser.add_argument("--grey", action="store_true", help="read a colour picture as grey")
    if command != "segment":
        parser.add_argument("--moves", choices=["expansion", "swap"], default="expansion",
                            help="of one label, or of two (expansion)")
        parser.add_argument("--bound", action="store_true", help="say how near the energy is")
    _gap_options(parser)
    parser.add_argument("--cycles", type=_ranged(0, 1000), default=100, metavar="N",
                        help="the most cycles of moves (100)")
    parser.add_argument("--fit", action="store_true",
                        help="make a picture of more than 1,048,576 pixels smaller first: else it"
                        " goes by tiles")
    parser.add_argument("--jobs", type=_ranged(1, 1024), metavar="N",
                        help="processes for tiles (as many as there are processors)")
    parser.add_argument("--tile", type=_ranged(1, 1024), metavar="N",
                        help="the side of a tile (256)")
    scale = parser.add_mutually_exclusive_group()
    scale.add_argument("--scale", dest="scale", action="store_true", default=None,
                       help="spread the labels over all greys"
                       + ("" if command == "stereo" else " (the default)"))
    scale.add_argument("--no-scale", dest="scale", action="store_false",
                       help="write the labels as they are"
                       + (" (the default)" if command == "stereo" else ""))
    parser.add_argument("--bits", type=int, choices=[8, 16], help="bits of the written samples")
    parser.add_argument("--plot", metavar="FILE",
                        help="draw the energy over the moves (matplotlib)")
    parser.add_argument("--progress", action="store_true", default=None,
                        help="a bar, also where nobody looks on")
    parser.add_argument("--quiet", action="store_true", help="say nothing but what went wrong")


def _gap_options(parser: argparse.ArgumentParser) -> None:
    parser.add_argument("--gap", action="store_true",
                        help="say how far above the least energy it is at most")
    parser.add_argument("--refine", action="store_true",
                        help="start from labels that a bound tells, beside a run from 0: the lower"
                        " counts")
    parser.add_argument("--passes", type=_ranged(1, 1000), default=50, metavar="N",
                        help="the most passes of --gap and --refine (50): of fewer than 16 labels"
                        " --refine makes as many sixteenths")


def command_line(version: str) -> argparse.ArgumentParser:
    """The parser of `python -m gco`."""
    parser = argparse.ArgumentParser(
        prog="gco", description="Labels the pixels of pictures by minimum cuts.",
        epilog="example: python -m gco restore in.jpg out.png")
    parser.add_argument("--version", action="version", version=f"gco {version}")
    commands = parser.add_subparsers(dest="command", required=True, metavar="COMMAND")
    for name, (_, words, example) in ABOUT.items():
        one = commands.add_parser(name, help=words, description=words,
                                  epilog=f"{_likes(name)}\n\nexample: {example}",
                                  formatter_class=argparse.RawDescriptionHelpFormatter)
        _picture_options(one, name)
    words = "opens the page for a browser, where pictures are cut, restored and matched"
    commands.add_parser("page", help=words, description=words)
    for name, words in (("label", "solves a problem of labels (docs/LABEL.md)"),
                        ("energy", "solves a yes-no energy (docs/ENERGY.md)")):
        one = commands.add_parser(name, help=words, description=words)
        one.add_argument("file", nargs="?", default="-", help="a TOML file, else standard input")
        if name == "label":
            one.add_argument("--bound", action="store_true", help="say how near the energy is")
            _gap_options(one)
    return parser


def _likes(command: str) -> str:
    """What each name of --like sets, a line each."""
    lines = [f"--like {name}: " + " ".join(f"--{cost} {value}" for cost, value in costs.items())
             for name, costs in LIKES[command].items()]
    usual = USUAL[command] + (" (colours if the picture has some, and both kinds of seeds)"
                              if command == "segment" else "")
    return "\n".join([*lines, f"Without any cost it is {usual}, and else plain."])


def settle(options: argparse.Namespace, usual: Optional[str] = None) -> None:
    """Sets the costs that were not given, and --like itself, by --like or its default.

    How many labels there are is no cost: it leaves the default as it is.
    """
    names = [name for name in OF_COMMAND[options.command] if name not in NO_COSTS]
    given = [name for name in names if getattr(options, name) is not None]
    options.like = options.like or ("plain" if given else usual or USUAL[options.command])
    for name, value in LIKES[options.command][options.like].items():
        if getattr(options, name) is None:
            setattr(options, name, value)
