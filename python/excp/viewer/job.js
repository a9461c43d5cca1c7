/**
 * @file What the script of a run says, which the page has beside the JSON of the run: the channel program of each request.
 *
 * @typedef {{at: string, image: string, name: string, mnemonic: ?string, label: ?string, operand: ?string, line: ?number, text:
 *   ?string}}
 * Ccw the last four are those of a job in symbols
 * @typedef {{loaded: number[], content: Array[], programs: Ccw[][], requests: number[][]}} Job
 */

/** The job of a run. A page of a scenario whose lines came one by one has none. @returns {?Job} */
function jobOf(model) {
  if (model.job === undefined) model.job = model.readJob();
  return model.job;
}

/** The CCWs to which the program of a request may come, by their addresses; none if the script does not tell them.
 * @returns {Ccw[]} */
function programOf(model, { task, unit, number }) {
  const programs = jobOf(model)?.requests[task] ?? [];
  const issued = (model.run.task_events[task] ?? []).filter(({ what }) => what === "issued");
  // an `excp` of a scenario may be answered without a number
  if (issued.length !== programs.length) return [];
  return jobOf(model).programs[programs[issued.findIndex((it) => it.unit === unit && it.request === number)]] ?? [];
}
