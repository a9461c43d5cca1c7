/** @file How many requests ended with each code, in buckets of columns: for the overview, and for lanes with too many bars. */

const BUCKET = 3;

/** How many requests ended with each code in each bucket. */
const noCounts = (buckets) => new Map([...CODES.keys()].map((code) => [code, new Uint32Array(buckets)]));

/** Counts the requests of some places of a lane. `bucketOf` returns the bucket of a column. */
function countEnds(counts, lane, [from, before], bucketOf, matches) {
  for (let place = from; place < before; place += 1) {
    const { request, to } = lane.items[place];
    const list = request && matches(request) ? counts.get(request.code) : undefined;
    const bucket = Math.floor(bucketOf(to));
    if (list && bucket >= 0 && bucket < list.length) list[bucket] += 1;
  }
  return counts;
}

/** Columns whose height is the number of requests that ended in them, divided by codes: a path for each code. */
function drawCounts(counts, width, base, height) {
  const lists = [...counts.values()];
  const totals = Array.from(lists[0], (_, bucket) => lists.reduce((sum, list) => sum + list[bucket], 0));
  const most = totals.reduce((one, other) => Math.max(one, other), 1);
  const tops = new Float64Array(totals.length);
  return [...counts].reverse().map(([code, list]) => {
    let path = "";
    list.forEach((number, bucket) => {
      if (!number) return;
      const high = Math.min(height - tops[bucket], Math.max(2, (height * number) / most));
      tops[bucket] += high;
      path += `M${bucket * width} ${(base - tops[bucket]).toFixed(1)}h${width}v${high.toFixed(1)}h-${width}z`;
    });
    return path ? svg("path", { class: `share c${code}`, d: path }) : null;
  }).filter(Boolean);
}

/** A lane with too many bars in view: the shares of codes, bucket by bucket. */
function densityOf(lane, view, matches) {
  const bucketOf = (column) => view.middle(column) / BUCKET;
  const counts = noCounts(Math.ceil(view.width / BUCKET));
  countEnds(counts, lane, placesBetween(lane, view.from, view.to + 1), bucketOf, matches);
  const height = Math.min(26, lane.height - 12);
  return drawCounts(counts, BUCKET, 6 + height, height);
}
