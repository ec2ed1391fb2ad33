"""What tools/generate_formats writes from the JSON schemas in docs/: a subclass of `Language` for each language, and
functions `blocks` for blocks of files that are written by hand."""
