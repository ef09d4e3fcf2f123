/* The page: what is chosen, pinned, sorted and still acceptable, and what is drawn anew when that changes. */

/** What the reader has chosen: places of entries and of their plans, limits as ranks, the table's order, its first row, and what it shows. */
const state = {
  chosen: 0,
  which: 0,
  /** @type {number|null} */
  pinned: null,
  pinnedWhich: 0,
  limits: COSTS.map((cost) => cost.values.length - 1),
  /** @type {Order} */
  order: { column: -1, backwards: false },
  first: 0,
  beyond: false,
};

/** The places of the entries that are left, which are within the limits, and their knee, or -1. */
const left = { places: ENTRIES.map((_, at) => at), knee: -1 };

/** Finds what is left. */
function narrow() {
  left.places = ENTRIES.map((_, at) => at).filter((at) => isWithin(ENTRIES[at], state.limits));
  left.knee = ENTRIES.length > 2 ? kneeOf(left.places) : -1;
}

/** The places of the entries of the table, in its order. */
function rows() {
  return sorted(state.beyond ? ENTRIES.map((_, at) => at) : left.places, state.order);
}

/** What is marked, for every view. */
function marks() {
  return { limits: state.limits, chosen: state.chosen, pinned: state.pinned, knee: left.knee };
}

/** Draws everything. */
function draw() {
  drawPicture();
  drawTable();
  drawPlan();
  drawLeft();
}

function drawPicture() {
  if (COSTS.length) {
    drawAxes(marks());
    drawStrong(marks());
  }
  if (COSTS.length === 2) {
    drawStairs(marks());
  }
}

function drawTable() {
  const places = rows();
  const end = Math.min(state.first + ROWS, places.length);
  drawHead(state.order);
  drawRows(places, state.first, marks());
  byId('rows').textContent = places.length ? 'rows ' + (state.first + 1) + ' to ' + end + ' of ' + places.length : 'no rows';
  byId('pages').hidden = places.length <= ROWS;
  setDisabled('before', state.first === 0);
  setDisabled('after', end >= places.length);
  const place = places.indexOf(state.chosen);
  setDisabled('previous', place === 0 || !places.length);
  setDisabled('next', place === places.length - 1 || !places.length);
}

function drawPlan() {
  const entry = ENTRIES[state.chosen];
  const now = marks();
  const words = marksOf(state.chosen, now).filter((word) => word !== 'chosen').join(', ').replace('beyond', 'beyond the limits');
  byId('plan-title').textContent = 'Plan ' + entry.number + (words ? ' (' + words + ')' : '');
  const chosen = { entry, which: state.which };
  byId('pin').textContent = (isPinned() ? 'Unpin ' : 'Pin ') + nameOf(chosen);
  byId('pin').setAttribute('aria-pressed', String(isPinned()));
  setDisabled('nearest', now.knee < 0 || now.knee === state.chosen);
  byId('nearest').hidden = ENTRIES.length < 3;
  drawWhich(entry);
  const pinned = state.pinned === null || isPinned() ? null : { entry: ENTRIES[state.pinned], which: state.pinnedWhich };
  byId('plan-body').replaceChildren(...planParts(chosen, pinned, drawPlan));
}

/** Whether the very plan that is shown is pinned. */
function isPinned() {
  return state.pinned === state.chosen && state.pinnedWhich === state.which;
}

/** Pins the plan that is shown, or unpins it. */
function pin() {
  state.pinned = isPinned() ? null : state.chosen;
  state.pinnedWhich = state.which;
  if (COSTS.length) {
    drawStrong(marks());
  }
  drawTable();
  drawPlan();
}

/**
 * The choice among the plans of the same costs, where there are some.
 * @param {Entry} entry
 */
function drawWhich(entry) {
  byId('which-label').hidden = entry.plans.length < 2;
  byId('which').replaceChildren(...entry.plans.map((_, at) => element('option', { value: at }, (at + 1) + ' of ' + entry.plans.length)));
  /** @type {HTMLSelectElement} */ (byId('which')).value = String(state.which);
}

function drawLeft() {
  const places = left.places;
  const count = places.length + ' of ' + counted(ENTRIES.length, 'compromise') + (places.length === 1 ? ' is left' : ' are left');
  byId('left').textContent = count + (!places.length && isFront() ? ': no plan is within these limits.' : '.');
  byId('shared-body').replaceChildren(...sharedParts(places, drawLeft));
  setDisabled('reset', places.length === ENTRIES.length);
}

/**
 * @param {string} id
 * @param {boolean} disabled
 */
function setDisabled(id, disabled) {
  /** @type {HTMLButtonElement} */ (byId(id)).disabled = disabled;
}

/**
 * Chooses an entry.
 * @param {number} at
 */
function choose(at) {
  state.chosen = at;
  state.which = 0;
  if (COSTS.length) {
    drawStrong(marks());
  }
  showRow();
  drawPlan();
}

/** Draws the page of the table where the chosen entry stands. */
function showRow() {
  state.first = Math.max(0, Math.floor(rows().indexOf(state.chosen) / ROWS) * ROWS);
  drawTable();
  reveal(state.chosen);
}

/**
 * Goes so many rows on in the table's order.
 * @param {number} by
 */
function step(by) {
  const places = rows();
  const at = places.indexOf(state.chosen);
  choose(places[at < 0 ? 0 : Math.min(places.length - 1, Math.max(0, at + by))]);
}

/** The sliders: one for each cost, from the best value to the worst. */
function makeSliders() {
  byId('sliders').replaceChildren(...COSTS.map((cost, k) => {
    const last = cost.values.length - 1;
    const attributes = { type: 'range', min: 0, max: last, step: 1, value: last, id: 'slider-' + k };
    const slider = /** @type {HTMLInputElement} */ (element('input', attributes));
    slider.disabled = last === 0;
    slider.addEventListener('input', () => limit(k, Number(slider.value)));
    const label = element('label', { for: 'slider-' + k }, named(cost.name), ' ', element('span', { class: 'limit' }));
    return element('div', { class: 'slider' }, label, slider);
  }));
  COSTS.forEach((_, k) => sayLimit(k));
}

/**
 * Says a limit beside its slider.
 * @param {number} k
 */
function sayLimit(k) {
  const values = COSTS[k].values;
  const bound = COSTS[k].sense === 'min' ? 'at most ' : 'at least ';
  const words = values.length === 1 ? values[0] + ' in each' : bound + values[state.limits[k]];
  const slider = byId('slider-' + k);
  slider.setAttribute('aria-valuetext', words);
  /** @type {HTMLElement} */ (/** @type {HTMLElement} */ (slider.parentElement).querySelector('.limit')).textContent = words;
}

/**
 * @param {number} k
 * @param {number} rank
 */
function limit(k, rank) {
  state.limits[k] = rank;
  state.first = 0;
  sayLimit(k);
  narrow();
  draw();
}

/** Every limit back to the worst value. */
function acceptAll() {
  COSTS.forEach((cost, k) => {
    state.limits[k] = cost.values.length - 1;
    /** @type {HTMLInputElement} */ (byId('slider-' + k)).value = String(state.limits[k]);
    sayLimit(k);
  });
  state.first = 0;
  narrow();
  draw();
  const slider = document.getElementById('slider-0');
  if (slider) {
    slider.focus();
  }
}

/** What the list is, in words, and whether that was checked. */
function drawStatus() {
  const asked = !FRONT.complete ? 'The search had not ended, so there was nothing for check to accept.'
    : FRONT.accepted === null ? 'The list says that it is complete; check wasn\u2019t asked.'
      : FRONT.accepted ? 'The list is complete, and check accepted its proof.'
        : 'check doesn\u2019t accept this list by its log: don\u2019t rely on it.';
  const kind = warning() ? 'bad' : FRONT.accepted ? 'good' : 'open';
  const shownTitle = FRONT.title.charAt(0).toUpperCase() + FRONT.title.slice(1);
  byId('status').replaceChildren(element('p', { class: 'title' }, shownTitle), element('p', { class: 'asked ' + kind }, asked));
  if (FRONT.conflict.length) {
    byId('status').append(element('p', {}, 'These rows can\u2019t hold together:'),
      element('ul', {}, ...FRONT.conflict.map((line) => element('li', {}, named(line)))));
  }
  if (warning()) {
    document.querySelectorAll('h2').forEach((head) => head.append(' ', element('span', { class: 'mark' }, warning())));
  }
}

/** The words under the picture and over the table. */
function drawNotes() {
  const count = counted(ENTRIES.length, 'compromise');
  byId('caption').textContent = COSTS.length ? 'Parallel axes of ' + counted(COSTS.length, 'cost') + ' and ' + count
    + ': each line is a compromise, and on each axis the best value is above.' : 'A plan without costs: there is nothing to draw.';
  byId('axes').toggleAttribute('hidden', !COSTS.length);
  if (COSTS.length === 2) {
    byId('stairs-caption').textContent = 'Each point is a compromise; better is above and to the ' + (COSTS[0].sense === 'min' ? 'left' : 'right')
      + (isFront() ? ', and no plan is beyond the line of steps.' : warning() ? ', and a plan may be missing beyond the line of steps.' : '.');
    byId('stairs').toggleAttribute('hidden', false);
    byId('stairs-caption').hidden = false;
  }
  byId('legend').replaceChildren(element('span', { class: 'key chosen' }, 'chosen'), element('span', { class: 'key pinned' }, 'pinned'),
    element('span', { class: 'key within' }, 'left'), element('span', { class: 'key beyond' }, 'beyond the limits'));
  const knee = ENTRIES.length > 2 ? '. The knee is nearest to the best of each cost.' : '.';
  byId('table-note').replaceChildren('Differences are to the chosen plan: ', element('span', { class: 'better' }, 'bold is better'), ', ',
    element('span', { class: 'worse' }, 'slanted is worse'), knee);
}

/**
 * Lets a picture be pointed at: the nearest entry is said, and a click chooses it.
 * @param {string} id
 */
function listenToPicture(id) {
  const svg = byId(id);
  const under = (/** @type {MouseEvent} */ event) => {
    const box = svg.getBoundingClientRect();
    const [, top, wide] = (svg.getAttribute('viewBox') || '').split(' ').map(Number);
    const scale = wide / box.width;
    return nearestTo({ x: (event.clientX - box.left) * scale, y: top + (event.clientY - box.top) * scale }, left.places, id === 'stairs');
  };
  svg.addEventListener('pointermove', (event) => sayNear(under(event)));
  svg.addEventListener('pointerleave', () => sayNear(-1));
  svg.addEventListener('click', (event) => {
    const at = under(event);
    if (at >= 0) {
      choose(at);
    }
  });
}

/**
 * @param {number} at
 */
function sayNear(at) {
  const costs = COSTS.map((cost, k) => (at < 0 ? '' : isolated(cost.name) + ' ' + costOf(ENTRIES[at], k)));
  byId('near').textContent = at < 0 ? '' : 'plan ' + ENTRIES[at].number + ': ' + costs.join('; ');
}

/** @type {Object<string, function(number, number): number>} Where a key leads from a row, of so many. */
const KEYS = {
  ArrowDown: (at, count) => Math.min(count - 1, at + 1),
  ArrowUp: (at) => Math.max(0, at - 1),
  Home: () => 0,
  End: (_, count) => count - 1,
};

/** Lets rows be chosen by a click, and be gone through by arrows. */
function listenToRows() {
  const rowOf = (/** @type {Event} */ event) => /** @type {Element} */ (event.target).closest('tr');
  body().addEventListener('click', (event) => {
    const found = rowOf(event);
    if (found) {
      choose(Number(found.getAttribute('data-at')));
    }
  });
  body().addEventListener('keydown', (event) => {
    const found = rowOf(event);
    const move = KEYS[event.key];
    if (found && move) {
      event.preventDefault();
      const all = Array.from(body().children);
      focusRow(Number(all[move(all.indexOf(found), all.length)].getAttribute('data-at')));
    }
  });
}

/** Each button, and what it does. */
function listenToButtons() {
  /** @type {[string, function(): void][]} */
  const clicks = [
    ['reset', acceptAll],
    ['before', () => turn(-ROWS)],
    ['after', () => turn(ROWS)],
    ['previous', () => step(-1)],
    ['next', () => step(1)],
    ['nearest', () => choose(left.knee)],
    ['pin', pin],
  ];
  clicks.forEach(([id, act]) => byId(id).addEventListener('click', act));
  byId('beyond').addEventListener('change', () => {
    state.beyond = /** @type {HTMLInputElement} */ (byId('beyond')).checked;
    state.first = 0;
    drawTable();
  });
  byId('which').addEventListener('change', () => {
    state.which = Number(/** @type {HTMLSelectElement} */ (byId('which')).value);
    drawPlan();
  });
}

/**
 * Turns pages of the table.
 * @param {number} by
 */
function turn(by) {
  state.first = Math.max(0, state.first + by);
  drawTable();
}

/**
 * Sorts by a column: the best first, and at the second time the worst.
 * @param {number} column
 */
function sortBy(column) {
  state.order = { column, backwards: state.order.column === column && !state.order.backwards };
  state.first = 0;
  drawTable();
}

/** Begins. */
function start() {
  drawStatus();
  if (!ENTRIES.length) {
    return;
  }
  byId('main').hidden = false;
  byId('main').classList.toggle('wide', COSTS.length > 4);
  byId('limits').hidden = !COSTS.length;
  byId('picture').hidden = !COSTS.length;
  narrow();
  state.chosen = Math.max(0, left.knee);
  makeHead(sortBy);
  makeSliders();
  drawNotes();
  draw();
  showRow();
  ['axes', 'stairs'].forEach(listenToPicture);
  listenToRows();
  listenToButtons();
  window.addEventListener('resize', drawPicture);
}

start();
