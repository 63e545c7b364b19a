// Nodes of the page from elements (markup.js). Texts become text nodes, so that nothing of a file is read as markup.

const SVG = 'http://www.w3.org/2000/svg';

export const byId = (id) => document.getElementById(id);

export function nodeOf(item, inPicture = false) {
  if (typeof item !== 'object') return document.createTextNode(String(item));
  const picture = inPicture || item.name === 'svg';
  const node = picture ? document.createElementNS(SVG, item.name) : document.createElement(item.name);
  for (const [name, value] of Object.entries(item.attributes)) {
    if (value === null || value === undefined || value === false || name === 'xmlns') continue;
    node.setAttribute(name, value === true ? '' : String(value));
  }
  node.append(...item.children.map((child) => nodeOf(child, picture)));
  return node;
}

// Puts elements or texts in the place of what a node has.
export function fill(id, ...items) {
  byId(id).replaceChildren(...items.flat(Infinity).filter(Boolean).map((item) => nodeOf(item)));
}

// Offers a text as a file to save.
export function download(name, text, type) {
  const url = URL.createObjectURL(new Blob([text], { type }));
  const link = document.createElement('a');
  link.href = url;
  link.download = name;
  link.click();
  setTimeout(() => URL.revokeObjectURL(url), 10000);
}

// The choices of a select. What was chosen last is chosen again as soon as it is there.
export function choices(id, options) {
  const select = byId(id);
  const chosen = select.dataset.chosen ?? '';
  select.replaceChildren(
    ...options.map(({ value, text }) => {
      const option = document.createElement('option');
      option.value = value;
      option.textContent = text;
      return option;
    }),
  );
  if (options.some((option) => String(option.value) === chosen)) select.value = chosen;
}

// Chooses for the reader, and forgets what was chosen before.
export function chooseIn(id, value) {
  byId(id).dataset.chosen = value;
  byId(id).value = value;
}
