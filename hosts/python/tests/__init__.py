"""Tests of the desk for Python, run by hosts/python/checks.py."""
