// Elements of a page or a picture as data, turned into text here or into nodes by the page. Every text is escaped; nothing else writes
// markup.

// An element: its name, its attributes and its children, texts or elements. What is null, undefined or false is left out.
export function element(name, attributes = {}, ...children) {
  const kept = children.flat(Infinity).filter((child) => child !== null && child !== undefined && child !== false);
  return { name, attributes, children: kept };
}

const ESCAPES = { '&': '&amp;', '<': '&lt;', '>': '&gt;', '"': '&quot;', "'": '&#39;' };
// Characters that XML does not allow are left out.
const FORBIDDEN =
  /[\u0000-\u0008\u000b\u000c\u000e-\u001f\ufffe\uffff]|[\ud800-\udbff](?![\udc00-\udfff])|(?<![\ud800-\udbff])[\udc00-\udfff]/g;
const EMPTY = new Set(['meta', 'br', 'hr', 'input', 'col']);

export function escaped(text) {
  return String(text).replace(FORBIDDEN, '').replace(/[&<>"']/g, (character) => ESCAPES[character]);
}

// The text of an element. In XML every element is closed; in HTML those that have no children by their kind are not.
export function markup(item, xml = false) {
  if (typeof item !== 'object') return escaped(item);
  let text = '<' + item.name;
  for (const [name, value] of Object.entries(item.attributes)) {
    if (value === null || value === undefined || value === false) continue;
    text += ` ${name}="${value === true ? '' : escaped(value)}"`;
  }
  if (!xml && EMPTY.has(item.name)) return text + '>';
  if (xml && item.children.length === 0) return text + '/>';
  return text + '>' + item.children.map((child) => markup(child, xml)).join('') + `</${item.name}>`;
}

// A picture as a file of its own.
export function svgFile(picture) {
  return '<?xml version="1.0" encoding="UTF-8"?>\n' + markup(picture, true) + '\n';
}
