"""What is wrong in scripts and scenarios, found without running them."""

from .check import check_script, has_rejected_line
from .scenario import check_scenario

__all__ = ["check_scenario", "check_script", "has_rejected_line"]
