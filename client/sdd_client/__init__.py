"""The client of the storage daemon: GNU tar's streams in its sessions, and a catalogue of them."""
VERSION = "1.0.0"
