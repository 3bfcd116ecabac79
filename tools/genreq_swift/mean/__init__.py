"""What declarations mean: from names to protocols and generic signatures."""
