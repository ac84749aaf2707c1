// The numbers of GET /metrics, in Prometheus' text format. What isn't there is null: an older server tells less.

const PLAIN = /^ripsawbean_(\w+) (\S+)$/gm;
const NAMED = /^ripsawbean_(\w+)\{name="([^"]*)"\} (\S+)$/gm;

export class Metrics {
  #plain;
  #named = new Map();

  constructor(text) {
    this.#plain = new Map([...text.matchAll(PLAIN)].map(([, name, value]) => [name, Number(value)]));
    for (const [, family, name, value] of text.matchAll(NAMED)) {
      if (!this.#named.has(family)) this.#named.set(family, []);
      this.#named.get(family).push({ name, value: Number(value) });
    }
  }

  /** A number by its name without `ripsawbean_`, or null. */
  value(name) {
    const value = this.#plain.get(name) ?? NaN;
    return Number.isNaN(value) ? null : value;
  }

  /** The numbers of a family by their label `name`: a list of {name, value}. */
  named(family) {
    return this.#named.get(family) ?? [];
  }
}
