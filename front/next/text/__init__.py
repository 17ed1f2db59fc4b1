"""The notation: lines and tokens, the parser, names looked up, and the bytes of jobs."""
