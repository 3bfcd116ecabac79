"""Lays what `tools/genreq-swift` prints beside what the Swift compiler prints of the same sources."""
