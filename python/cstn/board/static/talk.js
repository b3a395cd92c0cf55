// What the page asks of the server. An address is relative, so the token of the page's own address is in each.

/** A request that was not granted, with words for whoever asked. */
export class Refused extends Error {
  constructor(words, data) {
    super(words);
    this.data = data;
  }
}

async function answer(request) {
  let response;
  try {
    response = await request;
  } catch {
    throw new Refused("The board does not answer. Once it does, the page shows whether that was told.", {});
  }
  const data = await response.json().catch(() => ({}));
  if (!response.ok) throw new Refused(data.error ?? `The board answered ${response.status}.`, data);
  return data;
}

const get = (path) => answer(fetch(path, { cache: "no-store" }));

const post = (path, body) =>
  answer(fetch(path, { method: "POST", headers: { "Content-Type": "application/json" }, body: JSON.stringify(body) }));

/** A key of an event: told twice, as after an answer that was lost, it counts once. */
export const newKey = () => [...crypto.getRandomValues(new Uint8Array(12))].map((it) => it.toString(16).padStart(2, "0")).join("");

export const plans = () => get("api/plans");
export const plan = (id, chosen) => get(`api/plans/${id}?${new URLSearchParams(chosen)}`);
export const begin = (document, title) => post("api/plans", { document, title });
export const tell = (id, event) => post(`api/plans/${id}/tell`, { key: newKey(), ...event });
export const whatIf = (id, event) => post(`api/plans/${id}/try`, event);
export const attempt = (id, event) => post(`api/plans/${id}/attempt`, event);
export const correct = (id, body) => post(`api/plans/${id}/correct`, body);
