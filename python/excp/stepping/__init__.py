"""Scenarios and schedules of seeds, carried out on a site of the library: what each event answers,
and the record of all that happened."""
