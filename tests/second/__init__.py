"""A second implementation of documents 01 and 02, written from their text alone, to be compared with the first."""
