#!/usr/bin/env python3
"""Runs the package tekhvumo, which lies in the folder beside this file."""
import runpy

if __name__ == "__main__":
    runpy.run_module("tekhvumo", run_name="__main__", alter_sys=True)
