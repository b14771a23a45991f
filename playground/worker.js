// In a worker: answers calls one after the other, each by a message, so that the page can go on meanwhile, and stop it.
onmessage = async ({ data: { code, calls } }) => {
  const view = await load(code);
  for (const { mode, text, given } of calls) postMessage({ ...view[mode](text, given), memory: view.memory() });
};
