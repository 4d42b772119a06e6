"""Random calls of the image commands, refused ones among them, and what the native library answers."""
import ctypes
import random
import struct

COMMANDS = {
    "restore": ["smooth", "trunc", "weight", "neighbours", "moves", "cycles", "labelCost"],
    "stereo": ["labels", "cap", "smooth", "trunc", "weight", "neighbours", "moves", "cycles"],
    "segment": ["low", "high", "strong", "weak", "edge", "neighbours", "cycles"],
}
CODES = {
    "smooth": ["potts", "linear", "quadratic"],
    "neighbours": [4, 8],
    "moves": ["expansion", "swap"],
}
TOLD = struct.Struct("<4q4Q2I")
NAMES = ["energy", "data", "smooth", "label", "bytes", "place", "vmin", "vmax", "alpha", "beta"]


def any_options(command, drawn):
    """Options in their ranges, but for a few."""
    limits = {
        "trunc": drawn.choice([1, 2, 3, 10, 10_000]),
        "weight": drawn.choice([0, 1, 3, 30, 1_000]),
        "cycles": drawn.choice([0, 1, 2, 100, 1_000]),
        "labelCost": drawn.choice([0, 0, 0, 1, 50, 10_000_000]),
        "labels": drawn.choice([1, 2, 3, 8, 256]),
        "cap": drawn.choice([0, 5, 100, 10_000_000]),
        "low": drawn.randint(0, 300),
        "high": drawn.randint(0, 65_535),
        "strong": drawn.randint(0, 1_000),
        "weak": drawn.randint(0, 40),
        "edge": drawn.randint(0, 60),
    }
    options = {
        name: drawn.choice(CODES[name]) if name in CODES else limits[name]
        for name in COMMANDS[command]
    }
    if drawn.random() < 0.06:
        name = drawn.choice([name for name in COMMANDS[command] if name not in CODES])
        options[name] = drawn.choice([10_000_001, 2**32 - 1, 65_536 if name != "cap" else 10_000_001])
    return options


def any_picture(drawn, width, height, maxval):
    """The bytes of a picture, now and then of one that is not in order."""
    samples = [drawn.randint(0, maxval) for _ in range(width * height)]
    if drawn.random() < 0.03 and samples:
        samples[drawn.randrange(len(samples))] = maxval + 1
    sizes = f"{width} {height}"
    fault = drawn.random()
    if fault < 0.02:
        sizes = drawn.choice(["0 3", "5000 2", "4000 4000", "3 x", "7"])
    head = drawn.choice(["\n", " ", "\n# made\n"]).join(["", sizes, str(0 if 0.02 <= fault < 0.03 else maxval)])
    if drawn.random() < 0.2:
        body = "\n" + " ".join(map(str, samples)) + "\n"
        if drawn.random() < 0.1:
            body = body.replace(" ", ";", 1)
        return ("P2" + head + body).encode()
    wide = ">H" if maxval > 255 else ">B"
    body = b"".join(struct.pack(wide, min(sample, 65_535 if maxval > 255 else 255)) for sample in samples)
    if drawn.random() < 0.03:
        body = body[:-1]
    return (drawn.choice(["P5"] * 30 + ["P6"]) + head + "\n").encode() + body


# Costs that are no metric, beside data costs that part neighbours: most such runs meet a pair that is not regular.
ROUGH = {"labels": 8, "cap": 300, "smooth": "quadratic", "trunc": 10_000, "weight": 1, "neighbours": 4,
         "moves": "expansion", "cycles": 100}


def any_call(drawn):
    if drawn.random() < 0.05:
        return "stereo", ROUGH, any_picture(drawn, 12, 12, 255) + any_picture(drawn, 12, 12, 255)
    command = drawn.choice(list(COMMANDS))
    width, height = drawn.randint(1, 14), drawn.randint(1, 14)
    maxval = drawn.choice([1, 3, 7, 31, 255, 255, 256, 65_535] if command != "restore" else [1, 3, 7, 15, 15, 300])
    first = any_picture(drawn, width, height, maxval)
    if command == "restore":
        return command, any_options(command, drawn), first
    if drawn.random() < 0.03:
        width += 1
    second = any_picture(drawn, width, height, maxval if command == "stereo" else drawn.choice([2, 2, 2, 2, 3]))
    return command, any_options(command, drawn), first + drawn.choice([b"", b"\n"]) + second


class Native:
    """The library of bindings/."""

    def __init__(self, path):
        self.library = ctypes.CDLL(str(path))

    def answer(self, command, options, data):
        """What a call tells, its status, and the bytes that it wrote."""
        numbers = [CODES[name].index(options[name]) if name in CODES else options[name] for name in COMMANDS[command]]
        words = (ctypes.c_uint32 * len(numbers))(*numbers)
        room = len(data) + 2
        out, told = ctypes.create_string_buffer(room), ctypes.create_string_buffer(TOLD.size)
        call = getattr(self.library, f"gco_{command}_pgm")
        status = call(words, data, ctypes.c_size_t(len(data)), out, ctypes.c_size_t(room), told)
        found = dict(zip(NAMES, TOLD.unpack(told.raw)), status=status)
        return {**found, "pgm": out.raw[: found["bytes"]].hex() if status == 0 else ""}


def random_cases(library, count, seed):
    """So many calls with their answers, as JavaScript is to compare them."""
    drawn, native = random.Random(seed), Native(library)
    cases = []
    for _ in range(count):
        command, options, data = any_call(drawn)
        cases.append({"command": command, "options": options, "input": data.hex(),
                      "wanted": native.answer(command, options, data)})
    return cases


def statuses(cases):
    """How many calls have each status."""
    counts = {}
    for case in cases:
        status = case["wanted"]["status"]
        counts[status] = counts.get(status, 0) + 1
    return dict(sorted(counts.items()))


# Each status that a call of the wrapper can have: memory is tried by itself, and there is always room.
WANTED_STATUSES = {0, 24, 27, 30, 31, 32, 33, 34, 35, 36, 37, 38, 39, 40, 41}
