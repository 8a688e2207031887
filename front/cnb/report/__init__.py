"""`cnb why`: what the last build of an image did, read from what it left, as one page."""
