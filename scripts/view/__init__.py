"""The views of a report: `view` at the top of the repository starts `command`.

report     the JSON of `pulsex check --json`, read and tested
sources    the sources that it names: their lines, and where a column stands
words      what the report's words mean, and what can be done about them
paths      a bug's path, each step with the function that it is in
summary    what was left out and dropped, put together by cause
lines, sarif, page   the three views
"""
