// What callers give and are given, and how the server's JSON and its paths have it.

const utf8 = new TextEncoder();
const strict = new TextDecoder("utf-8", { fatal: true, ignoreBOM: true }); // without ignoreBOM three bytes are lost

/** The bytes of a string or of a Uint8Array. */
export function bytesOf(data) {
  if (data instanceof Uint8Array) return data;
  if (typeof data !== "string") throw new TypeError(`a key or a value is a string or a Uint8Array, and not ${typeof data}`);
  if (/\p{Surrogate}/u.test(data)) throw new TypeError("half a surrogate pair stands for no bytes");
  return utf8.encode(data);
}

/** A string where the bytes are UTF-8, or the bytes. */
export function textOf(bytes) {
  try {
    return strict.decode(bytes);
  } catch {
    return bytes;
  }
}

export const fromBase64 = (text) => Uint8Array.from(atob(text), (one) => one.charCodeAt(0));
const toBase64 = (bytes) => btoa(Array.from(bytes, (byte) => String.fromCharCode(byte)).join(""));
export const toJson = (data) => {
  const bytes = bytesOf(data); // which also refuses what stands for none
  return typeof data === "string" ? data : { base64: toBase64(bytes) };
};
/** JSON's string or base64, as a caller gets it: the same bytes are always the same. */
const fromJson = (value) => (typeof value === "string" ? value : textOf(fromBase64(value.base64)));
export const rowOf = ({ key, value, version }) => ({ key: fromJson(key), value: value === null ? null : fromJson(value), version });
export const resultOf = (one) => one && (one.rows ? { rows: one.rows.map(rowOf), more: one.more } : rowOf(one));

/** Bytes as a path has them. Such words sort as the bytes do, so they also stand for keys. */
export const percent = (data) => Array.from(bytesOf(data), (byte) => `%${byte.toString(16).padStart(2, "0").toUpperCase()}`).join("");
/** The key right behind a key. */
export const behind = (key) => (typeof key === "string" ? `${key}\0` : Uint8Array.of(...key, 0));

/** A path with the arguments that are given. An empty bound is none. */
export function pathOf(path, lo, hi, further = {}) {
  const bounds = Object.entries({ lo, hi }).filter(([, bound]) => bound?.length).map(([name, bound]) => `${name}=${percent(bound)}`);
  const others = Object.entries(further).filter(([, value]) => value !== undefined && value !== null);
  const query = [...bounds, ...others.map(([name, value]) => `${name}=${encodeURIComponent(value)}`)].join("&");
  return query ? `${path}?${query}` : path;
}

/** The bytes of an argument of a path that the server has told. */
export function argumentIn(path, name) {
  const word = path.split(/[?&]/).find((one) => one.startsWith(`${name}=`)) ?? "";
  const letters = word.slice(name.length + 1).match(/%..|./gs) ?? [];
  return Uint8Array.from(letters, (it) => (it.length > 1 ? parseInt(it.slice(1), 16) : it.charCodeAt(0)));
}

/** Options, where all have a name that is known. Else one that is spelled wrong, such as a condition, would be overlooked. */
export function known(options, ...names) {
  const unknown = Object.keys(options ?? {}).find((name) => !names.includes(name));
  if (unknown !== undefined) throw new TypeError(`there is no option ${unknown}, but ${names.join(", ")}`);
  return options ?? {};
}

// ---- the parts of a transaction

const span = (lo, hi) => [lo, hi].map((bound) => (bound?.length ? toJson(bound) : null));
export const put = (key, value) => ({ put: toJson(key), value: toJson(value) });
export const del = (key) => ({ del: toJson(key) });
export const get = (key) => ({ get: toJson(key) });
export const scan = (lo, hi, limit) => ({ scan: span(lo, hi), ...(limit !== undefined && { limit }) });
export const valueIs = (key, value) => (value === null ? { key: toJson(key), absent: true } : { key: toJson(key), value: toJson(value) });
export const versionIs = (key, version) => ({ key: toJson(key), version: version ?? "0" });
export const exists = (key) => ({ key: toJson(key), absent: false });
export const unchanged = (lo, hi, since) => ({ span: span(lo, hi), unchanged: since });
