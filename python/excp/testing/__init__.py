"""Tests: jobs and scenarios with their expectations. Which files are tests, how a test ended, and
the reports on that. `test` of the command runs them."""
