"""Chromium and Firefox for the tests: one bridge to each, and what their pages are served by."""
