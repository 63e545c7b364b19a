// Checks upon a picture's text, which no part of the planner has written: well-formed XML, nothing that runs or reaches out, ids that hold.
import assert from 'node:assert/strict';

const NAME = '[a-zA-Z][a-zA-Z0-9:-]*';
const TAG = new RegExp(`^<(/?)(${NAME})((?:\\s+${NAME}="[^"<]*")*)\\s*(/?)>`);
const ATTRIBUTE = new RegExp(`(${NAME})="([^"]*)"`, 'g');
const ENTITY = /&(?!(?:amp|lt|gt|quot|#39);)/;
const CONTROL = /[\u0000-\u0008\u000b\u000c\u000e-\u001f\ufffe\uffff]/;
const ENTITIES = { amp: '&', lt: '<', gt: '>', quot: '"', '#39': "'" };
const ELEMENTS = new Set(['svg', 'title', 'desc', 'defs', 'pattern', 'rect', 'circle', 'path', 'line', 'text', 'g', 'animate']);

const plain = (text) => text.replace(/&(amp|lt|gt|quot|#39);/g, (_, name) => ENTITIES[name]);

// The tree of a text of XML; anything that is not well-formed fails.
export function parsed(text) {
  const root = { name: null, attributes: {}, children: [] };
  const open = [root];
  let rest = text.replace(/^<\?xml version="1.0" encoding="UTF-8"\?>\n/, '');
  assert.ok(!CONTROL.test(text), 'no character that XML forbids');
  while (rest !== '') {
    const next = rest.indexOf('<');
    const told = next < 0 ? rest : rest.slice(0, next);
    assert.ok(!ENTITY.test(told) && !told.includes('>'), `escaped: ${told.slice(0, 60)}`);
    if (told.trim() !== '') open[open.length - 1].children.push(plain(told));
    if (next < 0) break;
    rest = rest.slice(next);
    const tag = TAG.exec(rest);
    assert.ok(tag, `a tag: ${rest.slice(0, 80)}`);
    rest = rest.slice(tag[0].length);
    if (tag[1]) assert.equal(open.pop().name, tag[2]);
    else {
      const item = { name: tag[2], attributes: attributesOf(tag[3]), children: [] };
      open[open.length - 1].children.push(item);
      if (!tag[4]) open.push(item);
    }
  }
  assert.equal(open.length, 1, 'every element is closed');
  assert.equal(root.children.length, 1, 'one element holds all');
  return root.children[0];
}

function attributesOf(text) {
  const attributes = {};
  for (const [, name, value] of text.matchAll(ATTRIBUTE)) {
    assert.ok(!Object.hasOwn(attributes, name), `attribute ${name} once`);
    assert.ok(!ENTITY.test(value), `escaped: ${value}`);
    attributes[name] = plain(value);
  }
  return attributes;
}

export function everyItem(item, found = []) {
  if (typeof item === 'string') return found;
  found.push(item);
  for (const child of item.children) everyItem(child, found);
  return found;
}

const childNamed = (item, name) => item.children.find((child) => child.name === name);
export const textIn = (item) => item.children.map((child) => (typeof child === 'string' ? child : textIn(child))).join('');

// The parts of a picture that tell what they are.
export const toldParts = (root) => everyItem(root).filter((item) => item.attributes.tabindex !== undefined);

// Parses a picture and holds it to what every picture keeps.
export function checkedPicture(text) {
  const root = parsed(text);
  const items = everyItem(root);
  const ids = items.map((item) => item.attributes.id).filter((id) => id !== undefined);
  const known = new Set(ids);
  assert.equal(known.size, ids.length, 'ids are unique');
  assert.equal(root.attributes.viewBox, `0 0 ${root.attributes.width} ${root.attributes.height}`);
  assert.ok(textIn(childNamed(root, 'title')) !== '' && textIn(childNamed(root, 'desc')) !== '');
  for (const item of items) {
    assert.ok(ELEMENTS.has(item.name), `element ${item.name}`);
    for (const [name, value] of Object.entries(item.attributes)) {
      assert.ok(!/^(style|class|href|xlink:href|src|on.*)$/i.test(name), `attribute ${name}`);
      for (const [, id] of value.matchAll(/url\(#([^)]*)\)/g)) assert.ok(known.has(id), `id ${id} is there`);
      if (/url\(/.test(value) && name !== 'aria-label') assert.match(value, /^url\(#[\w-]+\)$/);
      if (name === 'aria-labelledby') for (const id of value.split(' ')) assert.ok(known.has(id), `id ${id} is there`);
      if (name !== 'aria-label' && name !== 'xmlns') assert.ok(!/:\/\//.test(value), `nothing outside: ${value}`);
      assert.ok(!/NaN|undefined|Infinity/.test(name === 'aria-label' ? '' : value), `${name}="${value}"`);
    }
  }
  for (const item of toldParts(root)) {
    assert.equal(item.attributes.role, 'img');
    assert.equal(textIn(childNamed(item, 'title')), item.attributes['aria-label']);
    assert.ok(item.attributes['aria-label'].length > 10);
  }
  return root;
}
