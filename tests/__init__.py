"""The tests, from the top of the repository: `python3 -m tests.run` runs all, `python3 -m tests.test_NAME` those of a file."""
