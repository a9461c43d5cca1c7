"""Every outcome of a job: for each request the posts that it can have, over all orders of steps.

The program excp_tools searches (docs/OUTCOMES.md). What is told of it is carried out here, on sites
of the library: so each line that is printed is lawful, whatever the search does."""
