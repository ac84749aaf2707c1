// Lists of which most stays from one look to the next. What hasn't changed keeps its element, so that it can be read,
// selected and scrolled, and costs nothing. What has changed keeps it too, so that the focus stays.

const texts = new WeakMap(); // the markup that an element was made of

/** Makes the children of an element those of the items, in their order. Each is {key, html}, of one element. */
export function keep(element, items) {
  const there = childrenOf(element, new Set(items.map((it) => it.key)));
  const made = new Map();
  const missing = items.filter((it) => !there.has(it.key));
  elementsOf(missing).forEach((it, i) => made.set(missing[i].key, it));
  let next = element.firstElementChild;
  for (const { key, html } of items) {
    const old = there.get(key);
    const child = old ?? made.get(key);
    if (old && texts.get(old) !== `${html}`) change(old, { key, html });
    if (child === next) next = next.nextElementSibling;
    else element.insertBefore(child, next);
  }
}

// The children that stay, by their keys. The others are removed.
function childrenOf(element, wanted) {
  const there = new Map();
  for (const it of [...element.children]) {
    if (wanted.has(it.dataset.key)) there.set(it.dataset.key, it);
    else it.remove();
  }
  return there;
}

// All are made of one text, since that is quicker than each by itself.
function elementsOf(items) {
  const template = document.createElement("template");
  template.innerHTML = items.map((it) => it.html).join("");
  const elements = [...template.content.children];
  elements.forEach((it, i) => {
    it.dataset.key = items[i].key;
    texts.set(it, `${items[i].html}`);
  });
  return elements;
}

function change(old, item) {
  const [made] = elementsOf([item]);
  for (const { name } of [...old.attributes]) if (!made.hasAttribute(name)) old.removeAttribute(name);
  for (const { name, value } of made.attributes) if (old.getAttribute(name) !== value) old.setAttribute(name, value);
  old.replaceChildren(...made.childNodes);
  texts.set(old, `${item.html}`);
}
