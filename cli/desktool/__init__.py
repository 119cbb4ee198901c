"""The desk tool. Everything that is decided about a table is decided by the library; these modules ask it, put its answers into words and draw."""
