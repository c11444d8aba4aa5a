"""A relay between the storage daemon and clients of other machines: it gives each a name, and lets through what the
name's role may (sdd-relay(8), docs/use/SECURITY.md).

`commands` has what a client may say, `roles` who may say it, `talk` the conversation, `streams` its two ends, `store` what
outlasts it, `configuration` the file of names, `main` the command line.
"""
VERSION = "1.0.0"
