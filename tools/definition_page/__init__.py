"""The page of the definitions on which the contract of `run` rests, read off the definitions themselves."""
