"""restore, stereo and segment: from files to a file."""
import argparse
import pathlib
import sys
from typing import Any, Callable, List, NamedTuple, Optional, Tuple

from . import colours, costs, large, plots, reading, running, seeds, writing
from .options import OF_COMMAND, settle
from .reading import Picture
from .words import Undecided, Wrong, numpy_and_pillow

STOPPED = 130


class Task(NamedTuple):
    """A labelling that a command asks for: its tables, and the greatest label.

    `coloured` is the picture whose colours are to stay, and `learned` makes the data costs of the
    next round of the labels of one. `notes` are sentences to be said.
    """

    data: Any
    smooth: Any
    pairs: Any
    label_costs: Optional[List[int]]
    greatest: int
    bits: int
    coloured: Optional[Picture] = None
    learned: Optional[Callable[[Any], Any]] = None
    notes: Tuple[str, ...] = ()


def _inputs(options: argparse.Namespace, least: int, most: int) -> List[str]:
    """The input files; the last that is named is the output."""
    if not least < len(options.files) <= most + 1:
        wanted = {"restore": "restore IN OUT", "stereo": "stereo LEFT RIGHT OUT",
                  "segment": "segment IN SEEDS OUT"}[options.command]
        raise Wrong(f"{len(options.files)} files are named: write {wanted}")
    return options.files[:-1]


def restore(options: argparse.Namespace) -> Task:
    (name,) = _inputs(options, 1, 1)
    picture = reading.fitted(reading.read_pictures(name)[0], options.fit)
    picture = picture._replace(notes=(*picture.notes, *large.notes_of(options, picture)))
    settle(options)
    levels = options.levels or picture.maxval + 1
    if levels > 256:
        raise Wrong(f"{name} has {levels:,} grey levels, and at most 256 are taken: give"
                    " --levels 32")
    samples = picture.samples
    if options.levels and levels != picture.maxval + 1:
        samples = costs.quantised(samples, picture.maxval, levels)
    return Task(large.restore_costs(samples, levels, options.cap),
                costs.smooth_costs(options.smooth, levels, options.trunc),
                large.even_pairs(samples.shape, options.weight, options.neighbours or 4),
                None if options.label_cost is None else [options.label_cost] * levels,
                levels - 1, 16 if picture.maxval > 255 else 8, *_kept_colours(options, picture))


def _kept_colours(options, picture):
    """The picture if its colours are to stay, nothing to learn, and what is to be said."""
    name, out = picture.name, options.files[-1]
    if picture.colours is None or options.grey:
        reason = "is read as grey" if picture.colours is not None else "has no colours"
        unused = f"{name} {reason}, so --chroma changes nothing"
        return None, None, (*picture.notes, *([unused] if options.chroma else []))
    why = None
    if pathlib.Path(out).suffix.lower() == ".pgm":
        why = f"{out} holds greys alone"
    elif options.scale is False:
        why = "levels that are written as they are (--no-scale) are greys"
    elif options.bits == 16:
        why = "16 bits are written of greys alone"
    if why:
        note = f"{name} has colours, and {why}: it is restored as grey"
        return None, None, (*picture.notes, note)
    kept = "its colours are restored by --chroma" if options.chroma else "its colours are kept"
    note = f"{name} has colours: its luminance is restored, and {kept} (--grey: in grey)"
    return picture, None, (*picture.notes, note)


def stereo(options: argparse.Namespace) -> Task:
    names = _inputs(options, 1, 2)
    pictures = [picture for name in names for picture in reading.read_pictures(name)]
    if len(names) == 2:
        pictures = [reading.read_pictures(name)[0] for name in names]
    if len(pictures) < 2:
        raise Wrong(f"{names[0]} has one picture, and stereo wants two: stereo LEFT RIGHT OUT")
    left, right = pictures[:2]
    settle(options)
    _alike(left.name, left.samples.shape, right.name, right.samples.shape)
    left, right = reading.fitted(left, options.fit), reading.fitted(right, options.fit)
    shape = left.samples.shape
    if options.labels is None:
        options.labels = min(256, max(16, shape[1] // 8))
    return Task(large.stereo_costs(left.samples, right.samples, options.labels, options.cap),
                costs.smooth_costs(options.smooth, options.labels, options.trunc),
                large.even_pairs(shape, options.weight, options.neighbours or 4), None,
                options.labels - 1, 8,
                notes=(*left.notes, *right.notes, *large.notes_of(options, left)))


def _alike(first, shape, second, other):
    if shape != other:
        raise Wrong(f"{first} has {shape[1]} x {shape[0]} pixels and {second} {other[1]} x"
                    f" {other[0]}: both are to be of one size")


def segment(options: argparse.Namespace) -> Task:
    numpy, _ = numpy_and_pillow()
    names = _inputs(options, 1, 2)
    pictures = reading.read_pictures(names[0])
    picture, drawn = pictures[0], None
    if len(names) == 2:
        drawn = seeds.read_seeds(names[1], picture)
    elif len(pictures) > 1:
        drawn = seeds.seeds_of(pictures[1])
    if drawn is not None:
        _alike(picture.name, picture.samples.shape, names[-1], drawn.shape)
    picture = reading.fitted(picture, options.fit)
    picture = picture._replace(notes=(*picture.notes, *large.notes_of(options, picture)))
    shape = picture.samples.shape
    drawn = numpy.zeros(shape, int) if drawn is None else reading.fitted_seeds(drawn, shape)
    has_colours = picture.colours is not None and not options.grey
    settle(options, "colours" if has_colours and not seeds.missing_kinds(drawn) else None)
    if options.like == "colours":
        return _by_colours(options, picture, drawn)
    notes = picture.notes
    if options.rounds is not None:
        notes += ("--rounds changes nothing without --like colours",)
    if has_colours:
        notes += (f"{picture.name} has colours, which are read as grey: --like colours decides by"
                  " them",)
    _greys(options, picture.samples, drawn)
    return Task(large.segment_costs(picture.samples, drawn, options.low, options.high),
                costs.smooth_costs("potts", 2, 1),
                large.edge_pairs(picture.samples, options.strong, options.weak, options.edge,
                                 options.neighbours or 4), None, 1, 8, notes=notes)


def _greys(options, samples, drawn):
    """--like edges wants seeds; --low and --high that are not given are the seeds' middle greys."""
    numpy, _ = numpy_and_pillow()
    missing = seeds.missing_kinds(drawn)
    if options.low == options.high and options.low is not None and missing:
        if not drawn.any():
            raise Undecided("there are no seeds, and --low and --high are one grey, so nothing"
                            " tells the two segments apart: give seeds, or --low and --high")
        raise Undecided(f"the {missing} segment has no seed, and --low and --high are one"
                        " grey, so nothing tells the two segments apart: paint both (red is the"
                        " first segment, blue the second), or give --low and --high")
    for name, seed in (("low", 1), ("high", 2)):
        if getattr(options, name) is not None:
            continue
        if not (drawn == seed).any():
            raise Undecided(f"there is no seed of segment {seed}, so --{name} is wanted: its grey")
        setattr(options, name, int(numpy.median(samples[drawn == seed])))


def _by_colours(options, picture, drawn):
    """The task of a segment by colour models of the seeds, and by contrast."""
    numpy, _ = numpy_and_pillow()
    missing = seeds.missing_kinds(drawn)
    if missing:
        raise Undecided(f"the {missing} segment has no seed, and --like colours decides by"
                        " the colours of both: paint both (red is the first segment, blue the"
                        " second)")
    if options.low is not None or options.high is not None:
        raise Undecided("--like colours decides by the seeds' colours: leave --low and --high away,"
                        " or take --like greys")
    shades = picture.colours
    if shades is None or options.grey:
        shades = numpy.repeat(picture.samples[..., None] * 255 // picture.maxval, 3, axis=2)
        shades = shades.astype(numpy.uint8)
    if options.edge is None:
        options.edge = colours.usual_edge(shades)
    if options.edge == 0:
        raise Undecided("--edge is 0, and --like colours divides by it: give 1 or more")

    def learned(kinds):
        return large.model_costs(shades, kinds, drawn)

    return Task(learned(drawn), costs.smooth_costs("potts", 2, 1),
                large.contrast_pairs(shades, options.strong, options.weak, options.edge,
                                       options.neighbours or 8),
                None, 1, 8, None, learned, picture.notes)


def _say(options, text):
    if not options.quiet:
        print(text, file=sys.stderr)


def run_picture(options: argparse.Namespace) -> int:
    """One of the three commands, whole; answers the exit status."""
    numpy_and_pillow()
    out = options.files[-1]
    scale = options.command != "stereo" if options.scale is None else options.scale
    if options.command == "segment":
        options.moves, options.bound = "expansion", False
    if len(options.files) > 1:
        writing.look_at(out, options.bits or 8, options.command != "restore" or not scale)
    if options.plot:
        plots.look_at_plot()
    task = {"restore": restore, "stereo": stereo, "segment": segment}[options.command](options)
    bits = options.bits or task.bits
    writing.look_at(out, bits, options.command != "restore" or not scale)
    said = {name: getattr(options, name) for name in OF_COMMAND[options.command]}
    _say(options, f"{options.command} --like {options.like}: " + " ".join(
        f"{name.replace('_', '-')} {value}" for name, value in said.items() if value is not None))
    for note in task.notes:
        _say(options, note)
    ran = _in_rounds(options, task)
    labels = writing.spread(ran.found.labels, task.greatest, bits, scale)
    tells_labels = options.command == "restore" and options.label_cost is not None
    low = ran.low if options.gap else None
    lines = [running.lines(ran.found, tells_labels, options.bound, low)]
    stopped, profile = ran.stopped, None
    if task.coloured is not None:
        labels, stopped = _coloured(options, task.coloured, labels, stopped, lines)
        profile = task.coloured.profile
    writing.write_picture(out, labels, bits, profile)
    _say(options, "\n".join(lines))
    if options.plot:
        name = pathlib.Path(options.files[0]).name
        plots.plot(options.plot, ran.steps, f"{options.command} {name}", ran.low)
    if stopped:
        print(f"stopped after {ran.done}: {out} is what was found till then", file=sys.stderr)
        return STOPPED
    return 0


def _ran(options, data, smooth, pairs, label_costs, kept):
    drawn = False if options.quiet else options.progress
    if hasattr(data, "piece"):
        if options.refine:
            raise Wrong("--refine takes a picture of at most 1,048,576 pixels: make it smaller with"
                        " --fit")
        return large.ran(data, smooth, pairs, options, drawn)
    with running.in_words():
        return running.ran(data, smooth, pairs, label_costs, options.moves, options.cycles, drawn,
                           kept, running.Wanted(options.gap, options.refine, options.passes))


def _in_rounds(options, task):
    """The run of a task; with --rounds again, by the costs that its labels teach, until they do not
    change any more (Rother, Kolmogorov and Blake 2004)."""
    ran = _ran(options, task.data, task.smooth, task.pairs, task.label_costs, bool(options.plot))
    for _ in range((options.rounds or 1) - 1 if task.learned else 0):
        if ran.stopped or not 0 < ran.found.labels.sum() < ran.found.labels.size:
            break
        before = ran.found.labels
        ran = _ran(options, task.learned(before + 1), task.smooth, task.pairs, None,
                   bool(options.plot))
        if (ran.found.labels == before).all():
            break
    return ran


def _coloured(options, picture, luminance, stopped, lines):
    """The picture with the restored luminance, and with the restored chroma if there is a weight
    for it; and whether Ctrl-C stopped that. Its lines are added."""
    moved = [0, 0]
    if options.chroma and not stopped:
        for place, plane in enumerate(colours.chroma(picture.colours, picture.samples)):
            levels = colours.Levels(plane, options.levels or picture.maxval + 1)
            ran = _ran(options, large.restore_costs(levels.samples, levels.count, options.cap),
                       costs.smooth_costs(options.smooth, levels.count, options.trunc),
                       large.even_pairs(plane.shape, options.chroma, options.neighbours or 4),
                       None, False)
            moved[place] = levels.values(ran.found.labels) - plane
            low = ran.low if options.gap else None
            lines.append(f"{('Cb', 'Cr')[place]} {running.lines(ran.found, False, False, low)}")
            stopped = ran.stopped
            if stopped:
                break
    return colours.with_luminance(picture.colours, picture.samples, luminance, *moved), stopped
