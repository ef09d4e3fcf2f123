/* A plan in words: its costs, its options as a grid or as a list, and what the pinned plan has instead. */

/** How many lines of a list of options stand there at first, and how many more a button shows: browsers take minutes to lay out 30,000. */
const LISTED = 60;
const MORE = 1000;

/** @type {Map<string, number>} How many lines of a list are shown, by its title, where the button was used. */
const opened = new Map();

/**
 * Options in lines: those of a row of the grid are one line, any other is its own.
 * @param {number[]} options
 * @returns {{head: string, words: string[]}[]}
 */
function linesOfOptions(options) {
  const grid = FRONT.grid;
  /** @type {Map<number, {head: string, words: string[]}>} */
  const rows = new Map();
  const lines = [];
  for (const option of options) {
    if (!grid || grid.row[option] < 0) {
      lines.push({ head: '', words: [FRONT.options[option]] });
      continue;
    }
    const row = grid.row[option];
    const line = rows.get(row) || { head: grid.rows[row], words: [] };
    if (!rows.has(row)) {
      rows.set(row, line);
      lines.push(line);
    }
    line.words.push((grid.columns[grid.column[option]] + ' ' + grid.word[option]).trim());
  }
  return lines;
}

/**
 * A titled list of options; a button shows more of a long one.
 * @param {string} title
 * @param {number[]} options
 * @param {function(): void} redraw
 */
function listOfOptions(title, options, redraw) {
  const lines = linesOfOptions(options);
  const shown = lines.slice(0, opened.get(title) || LISTED);
  const items = shown.map((line) => element('li', {}, ...(line.head ? [element('b', {}, named(line.head)), ' '] : []),
    ...line.words.flatMap((word, at) => (at ? [', ', named(word)] : [named(word)]))));
  const list = options.length ? element('ul', {}, ...items) : element('p', { class: 'none' }, 'nothing');
  const found = element('div', { class: 'options' }, element('h3', {}, title + ' (' + options.length + ')'), list);
  if (lines.length > shown.length) {
    const rest = lines.length - shown.length;
    const button = element('button', { type: 'button' }, 'Show ' + Math.min(MORE, rest) + ' more');
    button.addEventListener('click', () => {
      opened.set(title, shown.length + MORE);
      redraw();
    });
    found.append(element('p', { class: 'note' }, 'and ' + rest + ' more ', button));
  }
  return found;
}

/** @typedef {{entry: Entry, which: number}} Shown  a plan: its entry, and its place among the plans of the same costs */

/**
 * What a plan is called.
 * @param {Shown} plan
 */
function nameOf(plan) {
  const count = plan.entry.plans.length;
  return 'plan ' + plan.entry.number + (count > 1 ? ', ' + (plan.which + 1) + ' of ' + count : '');
}

/**
 * The costs of the chosen plan, and how they stand to the pinned one's.
 * @param {Shown} chosen
 * @param {Shown|null} other
 */
function costTable(chosen, other) {
  const entry = chosen.entry;
  const pinned = other ? other.entry : null;
  const heads = ['cost', nameOf(chosen), ...(other ? ['pinned ' + nameOf(other), 'difference'] : []), 'best', 'worst'];
  const rows = COSTS.map((cost, k) => element('tr', {}, element('th', { scope: 'row' }, named(cost.name)),
    element('td', { class: 'own' }, costOf(entry, k)),
    ...(pinned ? [element('td', {}, costOf(pinned, k)), element('td', {}, marked(difference(entry, pinned, k)))] : []),
    element('td', {}, cost.values[0]), element('td', {}, cost.values[cost.values.length - 1])));
  return element('div', { class: 'scroll' }, element('table', { class: 'costs' },
    element('thead', {}, element('tr', {}, ...heads.map((word) => element('th', { scope: 'col' }, word)))), element('tbody', {}, ...rows)));
}

/**
 * The grid of a plan; with a pinned one also what that takes instead.
 * @param {Set<number>} own
 * @param {Set<number>|null} other
 */
function gridTable(own, other) {
  const grid = /** @type {Grid} */ (FRONT.grid);
  /** @type {Map<string, number[]>} */
  const cells = new Map();
  grid.row.forEach((row, option) => {
    const key = row + ' ' + grid.column[option];
    const cell = cells.get(key);
    if (row >= 0 && cell) {
      cell.push(option);
    } else if (row >= 0) {
      cells.set(key, [option]);
    }
  });
  const top = element('tr', {}, element('td', {}), ...grid.columns.map((column) => element('th', { scope: 'col' }, named(column))));
  const rows = grid.rows.map((head, row) => element('tr', {}, element('th', { scope: 'row' }, named(head)),
    ...grid.columns.map((_, column) => gridCell(cells.get(row + ' ' + column), own, other))));
  return element('div', { class: 'scroll gridbox', role: 'region', 'aria-label': 'the plan as a grid', tabindex: 0 },
    element('table', { class: 'grid' }, element('thead', {}, top), element('tbody', {}, ...rows)));
}

/**
 * @param {number[]|undefined} options of the cell
 * @param {Set<number>} own
 * @param {Set<number>|null} other
 */
function gridCell(options, own, other) {
  if (!options) {
    return element('td', { class: 'no' });
  }
  const words = options.flatMap((option) => {
    const word = /** @type {Grid} */ (FRONT.grid).word[option] || '●';
    if (own.has(option)) {
      const isNew = other !== null && !other.has(option);
      return [element(isNew ? 'ins' : 'span', {}, isNew ? '+' : '', heard(isNew ? ' only this plan: ' : 'taken: '), named(word))];
    }
    return other && other.has(option) ? [element('del', {}, '−', heard(' only the pinned plan: '), named(word))] : [];
  });
  const isTaken = options.some((option) => own.has(option));
  return element('td', isTaken ? { class: 'yes' } : {}, ...words.flatMap((word, at) => (at ? [' ', word] : [word])));
}

/**
 * What is known of other plans of the same costs.
 * @param {Entry} entry
 */
function othersOf(entry) {
  if (entry.all === null) {
    return 'Other plans may have the same costs; this one is listed.';
  }
  const count = counted(entry.plans.length, 'plan') + (entry.plans.length === 1 ? ' has' : ' have') + ' these costs';
  if (!entry.all) {
    return 'At least ' + count + '; there may be more.';
  }
  return count + ', and no other' + (entry.checked ? ', which check-models accepted.' : '.');
}

/**
 * All that is said of the chosen plan.
 * @param {Shown} chosen
 * @param {Shown|null} pinned
 * @param {function(): void} redraw
 */
function planParts(chosen, pinned, redraw) {
  const options = taken(chosen.entry.plans[chosen.which]);
  const own = new Set(options);
  const other = pinned ? taken(pinned.entry.plans[pinned.which]) : null;
  const parts = [COSTS.length ? costTable(chosen, pinned) : element('p', {}, 'This problem has no costs.'),
    element('p', { class: 'note' }, othersOf(chosen.entry))];
  const beside = FRONT.grid ? options.filter((option) => /** @type {Grid} */ (FRONT.grid).row[option] < 0) : [];
  if (FRONT.grid) {
    parts.push(gridTable(own, other && new Set(other)));
  }
  if (pinned && other) {
    const has = new Set(other);
    parts.push(listOfOptions('Only ' + nameOf(chosen) + ' takes', options.filter((option) => !has.has(option)), redraw));
    parts.push(listOfOptions('The pinned ' + nameOf(pinned) + ' takes instead', other.filter((option) => !own.has(option)), redraw));
  }
  if (!FRONT.grid || beside.length) {
    parts.push(listOfOptions(FRONT.grid ? 'It also takes' : 'It takes', FRONT.grid ? beside : options, redraw));
  }
  return parts;
}

/**
 * What each and what none of the plans of some entries takes.
 * @param {number[]} places of entries
 * @param {function(): void} redraw
 */
function sharedParts(places, redraw) {
  if (!places.length) {
    return [element('p', { class: 'note' }, 'Nothing is left.')];
  }
  const { counts, plans } = countsOf(places);
  const isAll = places.every((at) => ENTRIES[at].all);
  const what = plans > places.length || isAll ? counted(plans, 'plan') + ' of ' + counted(places.length, 'compromise') : counted(plans, 'plan');
  const note = what + (isAll ? ', and these are all.' : '. Other plans of the same costs may differ.');
  return [element('p', { class: 'note' }, note), listOfOptions('Each of them takes', withCount(counts, plans), redraw),
    listOfOptions('None of them takes', withCount(counts, 0), redraw)];
}
