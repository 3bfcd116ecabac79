"""What genreq is asked of them, and how its answers are read."""
