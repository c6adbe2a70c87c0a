# No statement: an image without a byte.
