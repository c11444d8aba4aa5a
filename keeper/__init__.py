"""What looks after the volumes of a storage daemon: it labels them when they are needed, gives back those that no kept job
needs, and reads them to find damage (sdd-keeper(8)).

`configuration` has the file of pools, `daemon` what the daemon says of its volumes, `folders` what is in their folders,
`notes` what the daemon noted beside them, `scans` which sessions are on them, `jobs` which jobs these are and which of them are
kept, `verdicts` which volumes may go, `labels`, `removal` and `scrubs` what is done, `verification` and `throttle` how one volume
is read anew, `damage` what is found by that, `differences` what doesn't fit, `figures` what is told of all, `state` what outlasts
a stop, `rounds` one look at all, `main` the command line.
"""
VERSION = "1.0.0"
