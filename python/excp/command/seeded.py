"""`report --seed`: runs a script on a site of the library by the schedule of a seed, and prints its
report."""

from __future__ import annotations

from typing import Optional

from ..checking import has_rejected_line
from ..checking.loaded import Images, with_sizes
from ..stepping.record_lines import record_lines
from ..stepping.schedule import Job, Schedule
from .forms import Form
from .printing import print_record
from .site_files import SiteFiles, site_files
from .streams import ERRORS, REJECTED, ReaderGone, print_findings
from .tools import Order
from .units import check_fit, units_of
from .whole_script import WholeScript


def carry_out(order: Order, job: WholeScript, seed: int, form: Form) -> int:
    """Runs a script by a seed, prints its report in a form, and saves what is to be saved. Returns
    the exit status. Raises Ended."""
    with site_files(order, job.units) as files:
        images = files.measured()
        if is_rejected(order, job, images):
            return REJECTED
        schedule = Schedule(
            Job(with_sizes(job.script.script, images)),
            seed,
            files.contents(),
            keeps_lines=order.schedule is not None,
        )
        schedule.run()
        _print_and_save(schedule, files, form)
    return 0


def is_rejected(order: Order, job: WholeScript, images: Images) -> bool:
    """Whether a script has a fault. Prints what is found in it then. Raises Ended, and
    Unwritten."""
    findings = job.findings(images)
    if not has_rejected_line(findings):
        text = with_sizes(job.script.script, images)
        check_fit(units_of(text), order.loads, order.saves)
    if not any(it.is_fault for it in findings):
        return False
    print_findings(findings, job.file, ERRORS)
    return True


def _print_and_save(schedule: Schedule, files: SiteFiles, form: Form) -> None:
    """Saves although nothing reads the report any more. Raises ReaderGone then."""
    stage = schedule.stage
    gone: Optional[ReaderGone] = None
    try:
        print_record(form, record_lines(stage, form.part, form.most))
    except ReaderGone as error:
        gone = error
    files.save(stage.site, schedule.scenario())
    if gone is not None:
        raise gone
