// Runs the cases of cases.py by a library, and answers those that are answered otherwise, at most five.
function differing(library, Refused, cases) {
  const bytes = (text) => Uint8Array.from(text.match(/../g) ?? [], (byte) => parseInt(byte, 16));
  const hex = (array) => Array.from(array, (byte) => byte.toString(16).padStart(2, "0")).join("");
  const found = ({ command, options, input }) => {
    try {
      const { energy, data, smooth, label, bound, pgm } = library.run(command, bytes(input), options);
      return { status: 0, place: 0, energy, data, smooth, label, vmin: bound?.vmin ?? 0, vmax: bound?.vmax ?? 0, pgm: hex(pgm) };
    } catch (error) {
      if (!(error instanceof Refused)) throw error;
      return { status: error.status, place: error.place, energy: 0, data: 0, smooth: 0, label: 0, vmin: 0, vmax: 0, pgm: "" };
    }
  };
  const wrong = [];
  for (const one of cases) {
    const got = found(one);
    if (Object.keys(got).some((name) => got[name] !== one.wanted[name])) wrong.push({ ...one, got });
    if (wrong.length === 5) break;
  }
  return wrong;
}
