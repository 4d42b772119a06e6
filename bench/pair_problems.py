"""Problems whose pairs have tables of their own: the file that pair_peer and pair_gco read, and the
photographs of which montages are made. numpy is needed.
"""
import numpy

NOISE = 4  # the standard deviation of a photograph's noise, in grey levels
PASSERS = 6  # how many walk through each photograph


def write_problem(path, data, tables, pairs):
    """Writes a problem: data costs (sites, labels), a table for each pair (pairs, labels, labels),
    and rows (pairs, 3) of two sites and a weight. `pair_problem.h` says how it lies in the file."""
    data, tables = numpy.asarray(data), numpy.asarray(tables)
    rows = numpy.asarray(pairs).reshape(-1, 3)
    parts = [numpy.array([*data.shape, len(rows)]), data, tables, rows]
    path.write_bytes(b"".join(part.astype(numpy.int32).tobytes() for part in parts))


def rough(generator, side, width):
    """A square of random heights of standard deviation 1, smooth over so many pixels."""
    waves = numpy.fft.fftfreq(side)
    kept = numpy.exp(-2 * width**2 * (waves[:, None] ** 2 + waves[None, :] ** 2))
    heights = numpy.fft.ifft2(numpy.fft.fft2(generator.normal(size=(side, side))) * kept).real
    return heights / heights.std()


def passer(generator, side):
    """Where somebody stands: an ellipse, true within."""
    rows, columns = numpy.ogrid[:side, :side]
    top, left = generator.randint(0, side, 2)
    high, wide = generator.randint(side // 12, side // 5, 2)
    return ((rows - top) / high) ** 2 + ((columns - left) / wide) ** 2 < 1


def photographs(side, count, seed):
    """Photographs of one place, made up: the same ground with noise, and others who walk through
    each. An array (count, side, side) of greys, the same in each run of one seed."""
    generator = numpy.random.RandomState(seed)
    ground = 128 + 40 * rough(generator, side, 6) + 15 * rough(generator, side, 1.5)
    taken = []
    for _ in range(count):
        greys = ground + generator.normal(0, NOISE, (side, side))
        for _ in range(PASSERS):
            coat = generator.randint(0, 255) + 8 * rough(generator, side, 3)
            greys = numpy.where(passer(generator, side), coat, greys)
        taken.append(numpy.clip(greys, 0, 255))
    return numpy.array(taken).astype(numpy.int32)
