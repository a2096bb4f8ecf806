"""A run as a page, a picture, a trace, totals or rows."""
