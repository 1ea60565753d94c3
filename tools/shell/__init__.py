"""What stands around `./rvdyn` for those who use it: sessions by hand and from Python, CSV files in and rows out, and what tells of a script or
a transcript why it came so. docs/TOOLS.md has each with an example."""
