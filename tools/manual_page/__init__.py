"""The manual page of genreq, made from the pages of the repository."""
