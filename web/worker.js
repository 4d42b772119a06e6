// The Worker: each message is one command over the bytes of PGM. library.mjs stands before this text.
let library = null;

function answer({ id, command, input, options }) {
  const begun = performance.now();
  const found = library.run(command, input, options);
  const seconds = (performance.now() - begun) / 1000;
  postMessage({ id, found, seconds, memory: library.memory });
}

onmessage = async ({ data }) => {
  try {
    if (data.module) {
      library = await instantiate(data.module);
      postMessage({ ready: true });
    } else answer(data);
  } catch (error) {
    const isRefusal = error instanceof Refused;
    postMessage({ id: data.id, failed: error.message, status: isRefusal ? error.status : 0, broken: !isRefusal });
  }
};
