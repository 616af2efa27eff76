"""Uploads with real packages, made for tests and for what measures."""
