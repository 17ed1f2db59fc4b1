"""The notation's parts: lines and tokens, the parser, names looked up, and the way back."""
