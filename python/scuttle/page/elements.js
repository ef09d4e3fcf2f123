/* Making elements. Names only ever become text, never markup, and are kept from turning the direction of what is around them. */

/** @typedef {Node|string|number|null} Part */

/**
 * An element that is there already.
 * @param {string} id
 */
function byId(id) {
  return /** @type {HTMLElement} */ (document.getElementById(id));
}

/**
 * A new element.
 * @param {string} name
 * @param {Object<string, string|number>} attributes
 * @param {...Part} parts what stands in it
 */
function element(name, attributes, ...parts) {
  const made = document.createElement(name);
  fill(made, attributes, parts);
  return made;
}

/**
 * A new element of a picture.
 * @param {string} name
 * @param {Object<string, string|number>} attributes
 * @param {...Part} parts
 */
function shape(name, attributes, ...parts) {
  const made = document.createElementNS('http://www.w3.org/2000/svg', name);
  fill(made, attributes, parts);
  return made;
}

/**
 * @param {Element} made
 * @param {Object<string, string|number>} attributes
 * @param {Part[]} parts
 */
function fill(made, attributes, parts) {
  for (const [name, value] of Object.entries(attributes)) {
    made.setAttribute(name, String(value));
  }
  made.append(...parts.filter((part) => part !== null).map((part) => (part instanceof Node ? part : String(part))));
}

/**
 * A name, whichever way it is read.
 * @param {string} text
 */
function named(text) {
  return element('bdi', {}, text);
}

/**
 * The same where there can be no element, as in an attribute.
 * @param {string} text
 */
function isolated(text) {
  return '\u2068' + text + '\u2069';
}

/**
 * Words for those who hear the page.
 * @param {string} text
 */
function heard(text) {
  return element('span', { class: 'heard' }, text);
}

/**
 * A difference of costs, marked as better or worse in letters, colour and words.
 * @param {{text: string, order: number}} by
 */
function marked(by) {
  if (by.order === 0) {
    return element('span', { class: 'same' }, '=');
  }
  const kind = by.order < 0 ? 'better' : 'worse';
  return element('span', { class: kind }, by.text, heard(' ' + kind));
}
