"""Tests of the package tekhvumo, and of the files for editors and hooks beside it, on the program check_main."""
