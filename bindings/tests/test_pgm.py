"""restore_pgm, stereo_pgm and segment_pgm: the worked examples of docs/IMAGES.md, and what is refused."""
import pathlib

import gco_proved as gco

EXAMPLES = pathlib.Path(__file__).resolve().parent.parent.parent / "examples"


def example(name):
    return (EXAMPLES / name).read_bytes()


def refused(status, place, words, call, *values, **options):
    try:
        call(*values, **options)
    except gco.Refused as error:
        assert (error.status, error.place) == (status, place) and words in str(error), (error.status, error)
    else:
        raise AssertionError(f"not refused: {words}")


def worked():
    found = gco.restore_pgm(example("noisy.pgm"), weight=4)
    assert found[1:] == (8865, 7581, 1284, 0, (1, 1)) and found.pgm.startswith(b"P5\n64 64\n15\n"), found[1:]
    found = gco.stereo_pgm(example("dots.pgm"), labels=8, cap=80, weight=30)
    assert found[1:] == (23792, 5912, 17880, 0, (1, 1)), found[1:]
    found = gco.segment_pgm(example("seeded.pgm"), low=40, high=170, strong=90, weak=40, edge=60)
    assert found[1:] == (124704, 109694, 15010, 0, None), found[1:]
    assert gco.restore_pgm(b"P5\n3 1\n3\n\0\3\0", label_cost=2) == (b"P5\n3 1\n3\n\0\0\0", 5, 3, 0, 2, None)


def wrong():
    row = b"P5\n2 1\n1\n\0\1"
    refused(41, 2, "option weight", gco.restore_pgm, row, weight=1001)
    refused(41, 2, "option weight", gco.restore_pgm, row, weight=-1)
    refused(41, 0, "option smooth", gco.restore_pgm, row, smooth="cubic")
    refused(41, 5, "option neighbours", gco.segment_pgm, row, low=0, high=1, neighbours=6)
    refused(30, 0, "no picture", gco.segment_pgm, row, low=0, high=1)
    refused(31, 5, "byte 5", gco.restore_pgm, b"P5\n3 z")
    refused(35, 0, "ends before", gco.restore_pgm, b"P5\n2 1\n1\n\0")
    refused(39, 1, "seed 1", gco.segment_pgm, row + b"P5\n2 1\n3\n\0\3", low=0, high=1)
    refused(27, 0, "swaps", gco.restore_pgm, row, moves="swap", label_cost=1)


worked()
wrong()
print("python: restore_pgm, stereo_pgm and segment_pgm")
