"""The desk: a page in the browser on which queries are written, run over the archives of a folder, and seen."""
