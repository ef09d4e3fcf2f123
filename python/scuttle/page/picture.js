/* The picture: an axis for each cost, best above, and a line through them for each entry; of two costs also the staircase. */

/** Heights of the axes and of the staircase, and what is left free above and below. Pixels. */
const HIGH = { axes: 230, stairs: 250, above: 66, below: 30 };
/** From how many entries on lines are drawn how wide and how dark, and how many lines are a path; paths that cross add up. */
const STROKES = [
  { from: 0, width: 1.6, opacity: 0.75, lines: 1000 },
  { from: 60, width: 1.2, opacity: 0.45, lines: 10 },
  { from: 500, width: 1, opacity: 0.16, lines: 20 },
  { from: 2000, width: 1, opacity: 0.07, lines: 20 },
];
/** The most entries that are drawn with their numbers. */
const NUMBERED = 40;
/** The width of a letter of a name, the least width of a picture, and the most lines of a name. Pixels. */
const LETTER = 7.4;
const NARROWEST = 300;
const NAME_LINES = 3;

/** @typedef {{x: number, y: number}} Point */
/** @typedef {{limits: number[], chosen: number, pinned: number|null, knee: number}} Marks */

/** The places of the axes from left to right, for the width that there is, and how many letters have room at each. */
function axisPlaces() {
  const wide = Math.max(NARROWEST, byId('axes').getBoundingClientRect().width || 640);
  const side = Math.min(wide / (2 * COSTS.length), COSTS.length === 1 ? wide : 90);
  const step = COSTS.length === 1 ? 2 * side : (wide - 2 * side) / (COSTS.length - 1);
  return { wide, letters: Math.max(4, Math.floor(Math.min(step, 2 * side) / LETTER)), xs: COSTS.map((_, k) => side + k * step) };
}

/**
 * The height of a share on an axis, from 0, the best, to 1.
 * @param {number} share
 */
function heightOf(share) {
  return HIGH.above + share * HIGH.axes;
}

/**
 * The layers of a picture, one above the other: what the limits change, and what is chosen and pinned, which is drawn more often.
 * @param {string} id
 */
function layersOf(id) {
  const svg = byId(id);
  if (!svg.firstChild) {
    svg.append(shape('g', {}), shape('g', {}));
  }
  return { svg, below: svg.children[0], above: svg.children[1] };
}

/**
 * Where the lines of entries go through, for axes at these places.
 * @param {number[]} xs
 * @returns {function(Entry): Point[]}
 */
function linePlace(xs) {
  return (entry) => xs.map((x, k) => ({ x, y: heightOf(shareOf(entry, k)) }));
}

/**
 * Draws the parallel axes, and the lines of all entries.
 * @param {Marks} marks
 */
function drawAxes(marks) {
  const { wide, letters, xs } = axisPlaces();
  const { svg, below } = layersOf('axes');
  const unused = 14 * (NAME_LINES - Math.max(...COSTS.map((cost) => wrapped(cost.name, letters).length)));
  svg.setAttribute('viewBox', '0 ' + unused + ' ' + wide + ' ' + (HIGH.above + HIGH.axes + HIGH.below - unused));
  below.replaceChildren(...linesOf(marks, linePaths(wide, xs)), ...xs.flatMap((x, k) => axis(x, k, letters, marks.limits[k])));
}

/** Draws what is chosen and pinned, in each picture. */
function drawStrong(/** @type {Marks} */ marks) {
  const { wide, xs } = axisPlaces();
  layersOf('axes').above.replaceChildren(...strong(marks, linePlace(xs), true));
  if (COSTS.length === 2) {
    layersOf('stairs').above.replaceChildren(...strong(marks, stairPlace(wide), false));
  }
}

/** @type {{wide: number, paths: string[]}} The line of each entry, kept while the width stays. */
const kept = { wide: 0, paths: [] };

/**
 * @param {number} wide
 * @param {number[]} xs
 */
function linePaths(wide, xs) {
  if (kept.wide !== wide) {
    kept.wide = wide;
    kept.paths = ENTRIES.map(linePlace(xs)).map(pathOf);
  }
  return kept.paths;
}

/**
 * The lines of all entries: first those beyond the limits, then the others.
 * @param {Marks} marks
 * @param {string[]} lines
 */
function linesOf(marks, lines) {
  const within = lines.filter((_, at) => isWithin(ENTRIES[at], marks.limits));
  const beyond = lines.filter((_, at) => !isWithin(ENTRIES[at], marks.limits));
  const light = { 'stroke-width': 1 };
  const stroke = STROKES.filter((each) => each.from <= within.length).slice(-1)[0];
  const dark = { 'stroke-width': stroke.width, 'stroke-opacity': stroke.opacity };
  return [...paths(beyond, 'beyond', light, 1000), ...paths(within, 'within', dark, stroke.lines)];
}

/**
 * @param {string[]} lines
 * @param {string} kind
 * @param {Object<string, string|number>} attributes
 * @param {number} count of lines of a path
 */
function paths(lines, kind, attributes, count) {
  const found = [];
  for (let at = 0; at < lines.length; at += count) {
    found.push(shape('path', { d: lines.slice(at, at + count).join(''), class: kind, ...attributes }));
  }
  return found;
}

/**
 * A line through points, or a short one where there is only one.
 * @param {Point[]} points
 */
function pathOf(points) {
  const ends = points.length === 1 ? [-24, 24].map((by) => ({ x: points[0].x + by, y: points[0].y })) : points;
  return ends.map((point, at) => (at ? 'L' : 'M') + point.x.toFixed(1) + ' ' + point.y.toFixed(1)).join('');
}

/**
 * An axis: its name and its best value above, its worst below, and what is beyond the limit.
 * @param {number} x
 * @param {number} k
 * @param {number} letters that have room
 * @param {number} limit
 */
function axis(x, k, letters, limit) {
  const lines = wrapped(COSTS[k].name, letters);
  const values = COSTS[k].values;
  const from = heightOf(SHARES[k][limit]) + 4;
  const to = heightOf(1) + 4;
  return [
    shape('line', { class: 'axis', x1: x, x2: x, y1: heightOf(0), y2: heightOf(1) }),
    ...(limit < values.length - 1 ? [shape('rect', { class: 'cut', x: x - 4, y: from, width: 8, height: Math.max(2, to - from) })] : []),
    ...lines.map((line, at) => text(x, HIGH.above - 24 - 14 * (lines.length - 1 - at), line, 'name')),
    text(x, HIGH.above - 8, shortened(values[0], letters), 'end'),
    ...(values.length > 1 ? [text(x, heightOf(1) + 18, shortened(values[values.length - 1], letters), 'end')] : []),
  ];
}

/**
 * @param {number} x
 * @param {number} y
 * @param {string} words
 * @param {string} kind
 * @param {string} [anchor]
 */
function text(x, y, words, kind, anchor = 'middle') {
  return shape('text', { x: x.toFixed(1), y: y.toFixed(1), class: kind, 'text-anchor': anchor }, isolated(words));
}

/**
 * A name in a few lines of at most so many letters; what doesn't fit is left out, and `…` says so.
 * @param {string} name
 * @param {number} letters
 */
function wrapped(name, letters) {
  /** @type {string[]} */
  const lines = [''];
  for (const word of name.split(' ')) {
    const longer = lines[lines.length - 1] ? lines[lines.length - 1] + ' ' + word : word;
    if (longer.length <= letters || !lines[lines.length - 1]) {
      lines[lines.length - 1] = longer;
    } else {
      lines.push(word);
    }
  }
  const kept = lines.slice(0, NAME_LINES).map((line) => cut(line, letters));
  return lines.length > NAME_LINES ? [...kept.slice(0, -1), cut(kept[NAME_LINES - 1] + ' ' + lines[NAME_LINES], letters)] : kept;
}

/**
 * @param {string} line
 * @param {number} letters
 */
function cut(line, letters) {
  const signs = Array.from(line);
  return signs.length > letters ? signs.slice(0, letters - 1).join('') + '…' : line;
}

/**
 * A value, or, where there is no room for it, about how large it is. The table has it exactly.
 * @param {string} value
 * @param {number} letters
 */
function shortened(value, letters) {
  return value.length <= Math.max(8, letters) ? value : '≈' + Number(value).toExponential(1).replace('+', '');
}

/**
 * The lines of the pinned and of the chosen entry, with marks by which they are told apart without colours.
 * @param {Marks} marks
 * @param {function(Entry): Point[]} pointsOf
 * @param {boolean} isLine whether they are drawn as lines
 */
function strong(marks, pointsOf, isLine) {
  /** @type {Node[]} */
  const found = [];
  if (marks.pinned !== null && marks.pinned !== marks.chosen) {
    found.push(...entryMarks(ENTRIES[marks.pinned], 'pinned', pointsOf, isLine));
  }
  return [...found, ...entryMarks(ENTRIES[marks.chosen], 'chosen', pointsOf, isLine)];
}

/**
 * @param {Entry} entry
 * @param {string} kind
 * @param {function(Entry): Point[]} pointsOf
 * @param {boolean} isLine
 */
function entryMarks(entry, kind, pointsOf, isLine) {
  const points = pointsOf(entry);
  const line = isLine ? [kind + ' halo', kind].map((each) => shape('path', { class: each, d: pathOf(points) })) : [];
  const dots = points.map((point) => (kind === 'chosen'
    ? shape('circle', { class: kind, cx: point.x, cy: point.y, r: isLine ? 5 : 7 })
    : shape('rect', { class: kind, x: point.x - 4.5, y: point.y - 4.5, width: 9, height: 9 })));
  const values = isLine && kind === 'chosen' ? points.flatMap((_, k) => valueBeside(entry, points, k)) : [];
  return [...line, ...dots, ...values];
}

/**
 * A cost beside its point, on the side of the line where there is room; at an end of the axis it stands there already.
 * @param {Entry} entry
 * @param {Point[]} points
 * @param {number} k
 * @returns {Element[]}
 */
function valueBeside(entry, points, k) {
  if ([0, 1].includes(shareOf(entry, k))) {
    return [];
  }
  const isLast = k === points.length - 1 && k > 0;
  const other = points[isLast ? k - 1 : Math.min(k + 1, points.length - 1)];
  const isBelow = (other.y < points[k].y || points[k].y < heightOf(0) + 18) && points[k].y < heightOf(1) - 18;
  const y = points[k].y + (isBelow ? 18 : -9);
  return [text(points[k].x + (isLast ? -9 : 9), y, shortened(costOf(entry, k), 10), 'value', isLast ? 'end' : 'start')];
}

/* The staircase. */

/**
 * Where an entry is in the staircase: the first cost grows to the right, and the second has its best above.
 * @param {number} wide
 * @returns {function(Entry): Point[]}
 */
function stairPlace(wide) {
  const isMin = COSTS[0].sense === 'min';
  return (entry) => {
    const share = shareOf(entry, 0);
    return [{ x: 74 + (wide - 114) * (isMin ? share : 1 - share), y: 34 + (HIGH.stairs - 34) * shareOf(entry, 1) }];
  };
}

/**
 * Draws two costs one against the other. Nothing is better than the dashed line: what lies behind it some entry is as good as.
 * @param {Marks} marks
 */
function drawStairs(marks) {
  const { wide } = axisPlaces();
  const { svg, below } = layersOf('stairs');
  const pointsOf = stairPlace(wide);
  svg.setAttribute('viewBox', '0 0 ' + wide + ' ' + (HIGH.stairs + 66));
  const order = ENTRIES.slice().sort((one, two) => one.ranks[0] - two.ranks[0]).map((entry) => pointsOf(entry)[0]);
  const bends = order.flatMap((point, at) => (at ? [{ x: point.x, y: order[at - 1].y }, point] : [point]));
  const radius = ENTRIES.length > 500 ? 1.6 : ENTRIES.length > NUMBERED ? 2.6 : 4;
  below.replaceChildren(...frame(wide), shape('path', { class: 'stair', d: pathOf(bends) }),
    ...ENTRIES.map((entry) => dot(entry, pointsOf(entry)[0], radius, isWithin(entry, marks.limits))));
}

/**
 * @param {Entry} entry
 * @param {Point} point
 * @param {number} radius
 * @param {boolean} within
 */
function dot(entry, point, radius, within) {
  const circle = shape('circle', { class: within ? 'in' : 'out', cx: point.x.toFixed(1), cy: point.y.toFixed(1), r: radius });
  return ENTRIES.length > NUMBERED ? circle : shape('g', {}, circle, text(point.x + 8, point.y - 7, String(entry.number), 'end', 'start'));
}

/**
 * The two axes of the staircase.
 * @param {number} wide
 */
function frame(wide) {
  const [x0, x1, y0, y1] = [58, wide - 24, 18, HIGH.stairs + 16];
  const across = ticks(0).flatMap((rank) => {
    const share = COSTS[0].sense === 'min' ? SHARES[0][rank] : 1 - SHARES[0][rank];
    const x = 74 + (wide - 114) * share;
    return [shape('line', { class: 'axis', x1: x, x2: x, y1, y2: y1 + 5 }), text(x, y1 + 19, shortened(COSTS[0].values[rank], 9), 'end')];
  });
  const upwards = ticks(1).flatMap((rank) => {
    const y = 34 + (HIGH.stairs - 34) * SHARES[1][rank];
    const value = shortened(COSTS[1].values[rank], 7);
    return [shape('line', { class: 'axis', x1: x0 - 5, x2: x0, y1: y, y2: y }), text(x0 - 8, y + 4, value, 'end', 'end')];
  });
  const letters = Math.floor(wide / LETTER) - 14;
  const names = COSTS.map((cost) => cut(cost.name, letters));
  return [shape('line', { class: 'axis', x1: x0, x2: x1, y1, y2: y1 }), shape('line', { class: 'axis', x1: x0, x2: x0, y1: y0, y2: y1 }),
    ...across, ...upwards, text((x0 + x1) / 2, y1 + 40, names[0], 'name'), text(4, 12, names[1], 'name', 'start')];
}

/**
 * The ranks whose values stand at an axis of the staircase: some that are far enough from each other.
 * @param {number} k
 */
function ticks(k) {
  /** @type {number[]} */
  const kept = [];
  SHARES[k].forEach((share, rank) => {
    const isFree = !kept.length || share - SHARES[k][kept[kept.length - 1]] >= 0.16;
    const isLast = rank === SHARES[k].length - 1;
    if (isFree && (isLast || 1 - share >= 0.16 || !kept.length)) {
      kept.push(rank);
    }
  });
  return kept;
}

/**
 * The place of the entry that is nearest to a point of a picture, among some; -1 where there is none.
 * @param {Point} at
 * @param {number[]} places
 * @param {boolean} isStairs
 */
function nearestTo(at, places, isStairs) {
  const { wide, xs } = axisPlaces();
  const stair = stairPlace(wide);
  const pointOf = (/** @type {Entry} */ entry) => (isStairs ? stair(entry)[0] : { x: at.x, y: lineAt(entry, at.x, xs) });
  let found = -1;
  let least = Infinity;
  for (const place of places) {
    const point = pointOf(ENTRIES[place]);
    const far = Math.hypot(point.x - at.x, point.y - at.y);
    if (far < least) {
      least = far;
      found = place;
    }
  }
  return found;
}

/**
 * The height of an entry's line at a place between the axes.
 * @param {Entry} entry
 * @param {number} x
 * @param {number[]} xs
 */
function lineAt(entry, x, xs) {
  if (xs.length === 1) {
    return heightOf(shareOf(entry, 0));
  }
  const right = Math.min(xs.length - 1, 1 + xs.slice(1).filter((each) => each < x).length);
  const part = Math.min(1, Math.max(0, (x - xs[right - 1]) / (xs[right] - xs[right - 1])));
  return heightOf(shareOf(entry, right - 1) * (1 - part) + shareOf(entry, right) * part);
}
