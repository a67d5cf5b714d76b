#!/usr/bin/env python3
"""Answers a plan as `roe_link check` does: prints the text, and ends with the code.

    examples/check_plan.py PLAN
"""
import os
import sys

sys.path.append(os.path.join(os.path.dirname(os.path.abspath(__file__)), "../python"))
import roe_link

with open(sys.argv[1], "rb") as file:
    code, text = roe_link.check(file.read())
print(text, end="")
sys.exit(code)
