"""The version of the front end, and of the record that it reads and writes."""

VERSION = "0.1.0"
RECORD_VERSION = 1
