/**
 * @file The index of a run: its requests, controls, DCBs and counts, from the JSON of docs/REPORT.md.
 *
 * @typedef {object} Moment An event with its column on the axis; 0 for one of the set-up.
 * @property {object} event as in the JSON
 * @property {number} unit
 * @property {number} column
 * @property {?Request} request
 * @property {?Mark} mark
 *
 * @typedef {object} Request
 * @property {number} index among all requests, in the order of their arrivals
 * @property {number} task
 * @property {number} unit
 * @property {number} number
 * @property {Moment} arrival
 * @property {Moment[]} starts
 * @property {Moment[]} runs
 * @property {?Moment} halted
 * @property {?Moment} end
 * @property {string} code its completion code; empty if it was not posted
 * @property {number} commands
 * @property {?{request: ?Request, mark: ?Mark, moment: Moment}} doom what else ended it
 * @property {Request[]} dooms which requests its error ended
 *
 * @typedef {{index: number, unit: number, moment: Moment, event: object, by: ?number, dooms: Request[]}} Mark a purge, a close, a
 * reset or an open
 * @typedef {{unit: number, dcb: number, from: number, to: number, isClosed: boolean}} Strip columns of a DCB that is closed or in
 *   error
 * @typedef {{requests: number, codes: Object<string, number>, retries: number, commands: number, marks: number}} Tally
 */

const MARKS = new Set(["purge", "closed", "reset", "opened"]);

/** The name of a request as the key of a map: one number, which is much faster to find than a text. */
const keyOf = (task, unit, number) => (task * 0x10000 + unit) * 0x200000 + number;

/**
 * The index of a run.
 * @param {object} run the JSON up to its units
 * @param {function(): {steps: object[][], posts: object[]}} readRest reads the rest, which comes after this script
 * @param {function(): ?Job} readJob reads what the script says
 */
function indexOf(run, readRest, readJob) {
  const model = {
    run, readRest, readJob, rest: null, requests: [], marks: [], names: new Map(), strips: [],
    /** Moments by unit and entry: `moments[unit].get(entry)`. */
    moments: run.units.map(() => new Map()),
  };
  run.units.forEach((unit, place) => {
    unit.medium.furtherR0 = new Set(run.further_r0[place].map(([cylinder, head]) => cylinder * unit.medium.heads + head));
    addEvents(model, unit);
  });
  model.length = giveColumns(model);
  orderByArrival(model);
  for (const request of model.requests) linkDoom(model, request);
  for (const unit of run.units) addStrips(model, unit);
  addTallies(model);
  return model;
}

/** The request with a name. */
const requestNamed = (model, task, unit, number) => model.names.get(keyOf(task, unit, number));

function restOf(model) {
  model.rest = model.rest ?? model.readRest();
  return model.rest;
}

/** The post of a request, if its task has it. */
function postOf(model, { task, unit, number }) {
  model.posts = model.posts ?? new Map(restOf(model).posts.map((post) => [keyOf(post.task, post.unit, post.request), post]));
  return model.posts.get(keyOf(task, unit, number));
}

/**
 * The attempts of a request: each start, and the turns of its program up to the next one.
 * @returns {{number: number, start: Moment, runs: Moment[]}[]}
 */
function attemptsOf({ starts, runs }) {
  return starts.map((start, place) => {
    const next = starts[place + 1]?.column ?? Infinity;
    return { number: place + 1, start, runs: runs.filter(({ column }) => column >= start.column && column < next) };
  });
}

/** The steps of a `ran`. */
const stepsOf = (model, { steps }) => restOf(model).steps[steps];

/** The last step of a request: that of a loop is the last one in it. */
function lastStep(model, request) {
  const last = lastOf(request.runs);
  const step = last && lastOf(stepsOf(model, last.event));
  return step?.loop ? lastOf(step.loop) : step;
}

/** The id of a request or a mark in the address of the page. */
const idOf = (thing) => (thing.event ? `m${thing.unit}-${thing.event.entry}` : `q${thing.task}-${thing.unit}-${thing.number}`);

/** The request or the mark that an id names. */
function thingOf(model, id) {
  const [, kind, first, second, third] = /^([qm])(\d+)-(\d+)(?:-(\d+))?$/.exec(id) ?? [];
  if (kind === "q") return requestNamed(model, Number(first), Number(second), Number(third));
  return kind === "m" ? model.moments[first]?.get(Number(second))?.mark : undefined;
}

function addEvents(model, { unit, events }) {
  for (const event of events) {
    const moment = { event, unit, column: 0, request: null, mark: null };
    model.moments[unit].set(event.entry, moment);
    if (MARKS.has(event.what)) addMark(model, moment);
    else addToRequest(model, moment);
  }
}

function addMark(model, moment) {
  const { unit, event } = moment;
  moment.mark = { index: 0, unit, moment, event, by: event.by ?? null, dooms: [] };
  model.marks.push(moment.mark);
}

function addToRequest(model, moment) {
  const { unit, event } = moment;
  const key = keyOf(event.task, unit, event.request);
  if (event.what === "arrived") model.names.set(key, newRequest(model, moment));
  const request = model.names.get(key);
  if (!request) return;
  moment.request = request;
  switch (event.what) {
    case "started": request.starts.push(moment); break;
    case "ran": request.runs.push(moment); request.commands += event.commands; break;
    case "halted": request.halted = moment; break;
    case "posted": request.end = moment; request.code = event.code; break;
  }
}

function newRequest(model, arrival) {
  const { unit, event } = arrival;
  const request = { index: 0, task: event.task, unit, number: event.request, arrival, starts: [], runs: [], halted: null,
    end: null, code: "", commands: 0, doom: null, dooms: [] };
  model.requests.push(request);
  return request;
}

/** Gives each event of the run its column: turns that are one event have one. Returns how many there are. */
function giveColumns({ moments }) {
  const placeOf = ({ event }) => event.column ?? event.at;
  const list = moments.flatMap((ofUnit) => [...ofUnit.values()].filter((moment) => placeOf(moment) > 0));
  list.sort((one, other) => placeOf(one) - placeOf(other));
  list.forEach((moment, place) => { moment.column = place + 1; });
  return list.length;
}

function orderByArrival(model) {
  model.requests.sort((one, other) => one.arrival.column - other.arrival.column);
  model.requests.forEach((request, index) => { request.index = index; });
  model.marks = model.marks.filter((mark) => mark.moment.column > 0);
  model.marks.sort((one, other) => one.moment.column - other.moment.column);
  model.marks.forEach((mark, index) => { mark.index = index; });
}

/** Links a request with what else ended it. */
function linkDoom(model, request) {
  const by = request.end?.event.doomed_by;
  const moment = by ? model.moments[request.unit].get(by) : undefined;
  if (!moment) return;
  request.doom = { moment, request: moment.request, mark: moment.mark };
  (moment.request ?? moment.mark)?.dooms.push(request);
}

/** Adds the columns in which DCBs of a unit have their error flag on, or are closed. */
function addStrips(model, { unit, events }) {
  const open = new Map();
  const end = (dcb, column) => {
    const strip = open.get(dcb);
    if (strip) model.strips.push({ ...strip, to: column });
    open.delete(dcb);
  };
  const begin = (dcb, column, isClosed) => {
    if (open.get(dcb)?.isClosed || (open.has(dcb) && !isClosed)) return;
    end(dcb, column);
    open.set(dcb, { unit, dcb, from: column, to: 0, isClosed });
  };
  for (const event of events) {
    const { column, request } = model.moments[unit].get(event.entry);
    if (event.what === "closed") begin(event.dcb, column, true);
    else if (event.what === "reset" && !open.get(event.dcb)?.isClosed) end(event.dcb, column);
    else if (event.sets_flag) begin(request.arrival.event.dcb, column, false);
  }
  for (const dcb of [...open.keys()]) end(dcb, model.length + 1);
}

/** @returns {Tally} */
const noTally = () => ({ requests: 0, codes: {}, retries: 0, commands: 0, marks: 0 });

function addTallies(model) {
  const { run } = model;
  model.whole = noTally();
  model.unitTallies = run.units.map(noTally);
  model.taskTallies = Array.from({ length: run.tasks }, noTally);
  for (const request of model.requests) {
    for (const tally of [model.whole, model.unitTallies[request.unit], model.taskTallies[request.task]]) count(tally, request);
  }
  for (const mark of model.marks) {
    if (mark.event.what === "opened") continue;
    for (const tally of [model.whole, model.unitTallies[mark.unit], model.taskTallies[mark.by]]) if (tally) tally.marks += 1;
  }
}

function count(tally, request) {
  tally.requests += 1;
  tally.retries += Math.max(0, request.starts.length - 1);
  tally.commands += request.commands;
  if (request.code) tally.codes[request.code] = (tally.codes[request.code] ?? 0) + 1;
}
