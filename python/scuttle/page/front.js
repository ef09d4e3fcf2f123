'use strict';
/* What the page knows of the front, and what it reckons from that. scuttle/page/data.py says what stands in the data. */

/** @typedef {{name: string, sense: 'min'|'max', values: string[]}} Cost */
/** @typedef {{number: number, ranks: number[], plans: number[][], all: boolean|null, checked: boolean|null}} Entry */
/** @typedef {{rows: string[], columns: string[], row: number[], column: number[], word: string[]}} Grid */
/** @typedef {{complete: boolean, accepted: boolean|null, listed: number, title: string, conflict: string[], costs: Cost[],
 *             options: string[], grid: Grid|null, entries: Entry[]}} Front */

/** @type {Front} */
const FRONT = JSON.parse(/** @type {HTMLElement} */ (document.getElementById('data')).textContent || '');
const COSTS = FRONT.costs;
const ENTRIES = FRONT.entries;
/** Each cost's values, best first, as numbers of any size. */
const VALUES = COSTS.map((cost) => cost.values.map((text) => BigInt(text)));
/** Where each value is between the best, 0, and the worst, 1. */
const SHARES = VALUES.map(sharesOf);

/**
 * @param {bigint[]} values best first
 * @returns {number[]}
 */
function sharesOf(values) {
  const range = values.length < 2 ? 1 : Number(values[values.length - 1] - values[0]);
  return values.map((value) => Number(value - values[0]) / range);
}

/**
 * A cost of an entry, exactly.
 * @param {Entry} entry
 * @param {number} k
 */
function costOf(entry, k) {
  return COSTS[k].values[entry.ranks[k]];
}

/**
 * @param {Entry} entry
 * @param {number} k
 */
function shareOf(entry, k) {
  return SHARES[k][entry.ranks[k]];
}

/**
 * How a cost stands to another entry's: the difference with its sign, and whether it is better (less than 0), the same or worse.
 * @param {Entry} entry
 * @param {Entry} other
 * @param {number} k
 * @returns {{text: string, order: number}}
 */
function difference(entry, other, k) {
  const by = VALUES[k][entry.ranks[k]] - VALUES[k][other.ranks[k]];
  return { text: by < 0n ? '\u2212' + String(-by) : '+' + String(by), order: entry.ranks[k] - other.ranks[k] };
}

/**
 * Whether an entry is within the limits, which are ranks.
 * @param {Entry} entry
 * @param {number[]} limits
 */
function isWithin(entry, limits) {
  return entry.ranks.every((rank, k) => rank <= limits[k]);
}

/**
 * The knee of some entries: the one nearest to the best of each cost, where each cost goes from 0 to 1 over them; -1 where there is none.
 * @param {number[]} places of entries
 */
function kneeOf(places) {
  const best = COSTS.map((_, k) => places.reduce((rank, at) => Math.min(rank, ENTRIES[at].ranks[k]), Infinity));
  const worst = COSTS.map((_, k) => places.reduce((rank, at) => Math.max(rank, ENTRIES[at].ranks[k]), 0));
  const shares = COSTS.map((_, k) => sharesOf(VALUES[k].slice(best[k], worst[k] + 1)));
  let found = -1;
  let least = Infinity;
  for (const at of places) {
    const far = ENTRIES[at].ranks.reduce((sum, rank, k) => sum + shares[k][rank - best[k]] ** 2, 0);
    if (far < least) {
      least = far;
      found = at;
    }
  }
  return found;
}

/**
 * The options of a plan, by number, in order.
 * @param {number[]} distances
 */
function taken(distances) {
  let at = 0;
  return distances.map((step) => (at += step));
}

/**
 * How many of the plans of some entries take each option, and how many plans these are.
 * @param {number[]} places of entries
 */
function countsOf(places) {
  const counts = new Uint32Array(FRONT.options.length);
  let plans = 0;
  for (const at of places) {
    for (const distances of ENTRIES[at].plans) {
      plans += 1;
      let option = 0;
      for (const step of distances) {
        option += step;
        counts[option] += 1;
      }
    }
  }
  return { counts, plans };
}

/**
 * The options of which as many plans take each as are asked for.
 * @param {Uint32Array} counts
 * @param {number} wanted
 */
function withCount(counts, wanted) {
  /** @type {number[]} */
  const found = [];
  counts.forEach((count, option) => {
    if (count === wanted) {
      found.push(option);
    }
  });
  return found;
}

/** What each view has to say where the list may not be the front; '' where there is nothing. */
function warning() {
  if (!FRONT.complete) {
    return 'INCOMPLETE: a better plan may be missing';
  }
  return FRONT.accepted === false ? 'NOT ACCEPTED by check' : '';
}

/** Whether these are proved to be all best compromises, so that no other plan is as good. */
function isFront() {
  return FRONT.complete && FRONT.accepted === true && FRONT.listed === ENTRIES.length;
}

/**
 * A number of things, in words.
 * @param {number} count
 * @param {string} word
 */
function counted(count, word) {
  return count + ' ' + word + (count === 1 ? '' : 's');
}
