"""The programs of Rattle: `excp_job`, which runs scripts, and `excp_tools`, for words that are not
all Python. Which of their builds runs, how they are built, and how they are installed."""
