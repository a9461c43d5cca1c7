/** @file The attempts of a request with their steps: those with equal steps in a row are one, and loops that go on are joined. */

/**
 * The attempts of a request. Those in a row with equal steps are one.
 * @returns {{numbers: number[], runs: Moment[], steps: object[]}[]}
 */
function attemptGroups(model, request) {
  return sameInARow(model, attemptsOf(request)).map(({ numbers, runs }) => {
    const steps = joinLoops(runs.flatMap(({ event }) => stepsOf(model, event)));
    return { numbers, runs, steps: steps.map((step) => withMnemonic(model, request, step)) };
  });
}

/** A step that broke a rule, with the mnemonic that the program of its request has at the CCW. The JSON names no CCW that is
 * rejected. */
function withMnemonic(model, request, step) {
  if (!step.rule?.image) return step;
  const { at, image } = step.rule;
  const ccw = programOf(model, request).find((it) => it.at === at && it.image === image);
  return { ...step, rule: { ...step.rule, mnemonic: ccw?.mnemonic } };
}

function sameInARow(model, attempts) {
  const groups = [];
  for (const { number, runs } of attempts) {
    const withoutFault = (step) => (step.loop ? step : { ...step, fault: Boolean(step.fault) });
    const key = JSON.stringify(runs.map(({ event }) => stepsOf(model, event).map(withoutFault)));
    const last = lastOf(groups);
    if (last?.key === key) last.numbers.push(number);
    else groups.push({ key, numbers: [number], runs });
  }
  return groups;
}

/** A loop as text, without its places. */
const loopAsText = (loop) => JSON.stringify(loop, (name, value) => (/place$/.test(name) ? undefined : value));

/** Loops that go on over the end of a turn, as one. */
function joinLoops(steps) {
  const joined = [];
  for (const step of steps) {
    const last = lastOf(joined);
    if (!step.loop) joined.push(step);
    else if (last?.loop && loopAsText(last.loop) === loopAsText(step.loop)) joined[joined.length - 1] = joinLoop(last, step);
    else joined.push(step);
  }
  return joined;
}

/** A loop and its continuation: the first places are those of the one, the last places those of the other. */
function joinLoop(one, other) {
  const loop = one.loop.map((step, place) => ({ ...step, last_place: other.loop[place].last_place ?? other.loop[place].place }));
  return { loop, times: one.times + other.times };
}
