/* The table: a row for each entry, with differences to the chosen one, sorted by any column. */

/** How many rows stand in the table at once. */
const ROWS = 100;

/** @typedef {{column: number, backwards: boolean}} Order  column -1 is the number */

/**
 * Entries in an order: the best of a cost first, or last; equal ones by their number.
 * @param {number[]} places
 * @param {Order} order
 */
function sorted(places, order) {
  const sign = order.backwards ? -1 : 1;
  const key = (/** @type {number} */ at) => (order.column < 0 ? at : ENTRIES[at].ranks[order.column]);
  return places.slice().sort((one, two) => sign * (key(one) - key(two)) || one - two);
}

/**
 * The head, with a button in each cell that sorts.
 * @param {function(number): void} sort
 */
function makeHead(sort) {
  const names = ['plan', ...COSTS.map((cost) => cost.name)];
  const cells = names.map((name, at) => {
    const button = element('button', { type: 'button' }, named(name), element('span', { class: 'arrow', 'aria-hidden': 'true' }));
    button.addEventListener('click', () => sort(at - 1));
    const sense = at ? element('span', { class: 'sense' }, COSTS[at - 1].sense === 'min' ? 'less is better' : 'more is better') : null;
    return element('th', { scope: 'col' }, button, sense);
  });
  head().replaceChildren(element('tr', {}, ...cells));
}

/** The head of the table. */
function head() {
  return /** @type {HTMLElement} */ (document.querySelector('#table thead'));
}

/** The rows of the table. */
function body() {
  return /** @type {HTMLElement} */ (document.querySelector('#table tbody'));
}

/**
 * Says by which column the rows are sorted.
 * @param {Order} order
 */
function drawHead(order) {
  head().querySelectorAll('th').forEach((cell, at) => {
    const isSorted = at - 1 === order.column;
    const isRising = !order.backwards === (at === 0 || COSTS[at - 1].sense === 'min');
    cell.setAttribute('aria-sort', !isSorted ? 'none' : isRising ? 'ascending' : 'descending');
    /** @type {HTMLElement} */ (cell.querySelector('.arrow')).textContent = !isSorted ? '' : isRising ? '\u00a0▲' : '\u00a0▼';
  });
}

/**
 * Draws a page of rows.
 * @param {number[]} places in order
 * @param {number} first
 * @param {Marks} marks
 */
function drawRows(places, first, marks) {
  const hadFocus = body().contains(document.activeElement);
  const shown = places.slice(first, first + ROWS);
  const entered = shown.includes(marks.chosen) ? marks.chosen : shown[0];
  body().replaceChildren(...shown.map((at) => row(at, marks, at === entered)));
  if (hadFocus) {
    focusRow(entered);
  }
}

/**
 * @param {number} at
 */
function focusRow(at) {
  const button = /** @type {HTMLElement|null} */ (body().querySelector('tr[data-at="' + at + '"] button'));
  if (button) {
    button.focus();
  }
}

/**
 * Scrolls the table, and nothing else, so far that a row is seen.
 * @param {number} at
 */
function reveal(at) {
  const found = /** @type {HTMLElement|null} */ (body().querySelector('tr[data-at="' + at + '"]'));
  const box = /** @type {HTMLElement} */ (document.querySelector('#table .scroll'));
  if (found) {
    const top = found.offsetTop - head().offsetHeight;
    box.scrollTop = Math.max(found.offsetTop + found.offsetHeight - box.clientHeight, Math.min(box.scrollTop, top));
  }
}

/**
 * @param {number} at
 * @param {Marks} marks
 * @param {boolean} isEntered whether the Tab key reaches it; arrows reach the others
 */
function row(at, marks, isEntered) {
  const entry = ENTRIES[at];
  const words = marksOf(at, marks);
  const button = element('button', { type: 'button', tabindex: isEntered ? 0 : -1, 'aria-pressed': String(at === marks.chosen) },
    heard('plan '), entry.number);
  const cells = COSTS.map((_, k) => element('td', {}, costOf(entry, k), ...beside(entry, at, marks, k)));
  const tags = words.filter((word) => word !== 'chosen').map((word) => element('span', { class: 'tag' }, word));
  return element('tr', { 'data-at': at, class: words.join(' ') }, element('th', { scope: 'row' }, button, ...tags), ...cells);
}

/**
 * What an entry is besides: chosen, pinned, the knee, beyond the limits.
 * @param {number} at
 * @param {Marks} marks
 */
function marksOf(at, marks) {
  const found = [];
  if (at === marks.chosen) {
    found.push('chosen');
  }
  if (at === marks.pinned) {
    found.push('pinned');
  }
  if (at === marks.knee) {
    found.push('knee');
  }
  if (!isWithin(ENTRIES[at], marks.limits)) {
    found.push('beyond');
  }
  return found;
}

/**
 * A cost's difference to that of the chosen entry.
 * @param {Entry} entry
 * @param {number} at
 * @param {Marks} marks
 * @param {number} k
 */
function beside(entry, at, marks, k) {
  return at === marks.chosen ? [] : [' ', marked(difference(entry, ENTRIES[marks.chosen], k))];
}
