"""What the built program takes, from the top of the repository: `python3 -m bench.NAME ARCHIVE FOLDER`. docs/FIGURES.md and bench/FIGURES.md have what they print."""
