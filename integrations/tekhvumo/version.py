"""The version of tekhvumo."""

VERSION = "0.1.0"
