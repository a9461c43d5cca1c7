/**
 * @file Waits and collects of tasks on the axis.
 *
 * @typedef {{from: number, to: number, collects: number}} Wait columns, and how many posts it collects
 * @typedef {{column: number, request: ?Request}} Collect
 */

/**
 * The waits and the collects of a task. A collect is at or after its post, and at or after the task's event before it. A wait lasts
 * from the task's event before it to the last collect after it.
 * @returns {{waits: Wait[], collects: Collect[]}}
 */
function waitsOf(model, task) {
  const waits = [];
  const collects = [];
  let now = 0;
  let wait = null;
  for (const event of model.run.task_events[task] ?? []) {
    const request = requestNamed(model, task, event.unit, event.request);
    switch (event.what) {
      case "waited":
        wait = { from: now, to: now, collects: 0 };
        waits.push(wait);
        break;
      case "collected":
        now = Math.max(now, request?.end?.column ?? 0);
        collects.push({ column: now, request });
        if (wait) Object.assign(wait, { to: now, collects: wait.collects + 1 });
        break;
      default: {
        const moment = event.what === "issued" ? request?.arrival : model.moments[event.unit]?.get(event.entry);
        now = Math.max(now, moment?.column ?? 0);
        wait = null;
      }
    }
  }
  return { waits: waits.filter(({ collects: some }) => some), collects };
}
