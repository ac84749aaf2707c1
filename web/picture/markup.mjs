// Text of a page or a drawing. Every value in it is escaped, unless it is markup itself: a key named <b> stays a key.

class Markup {
  constructor(text) {
    this.text = text;
  }

  toString() {
    return this.text;
  }
}

/** A tag for template texts: markup`<b>${word}</b>`. Lists are joined; null, undefined and false leave nothing. */
export function markup(strings, ...values) {
  return new Markup(strings.reduce((text, it, i) => text + filled(values[i - 1]) + it));
}

function filled(value) {
  if (value instanceof Markup) return value.text;
  if (Array.isArray(value)) return value.map(filled).join("");
  if (value === null || value === undefined || value === false) return "";
  return String(value).replace(/[&<>"']/g, (it) => `&#${it.charCodeAt(0)};`);
}
