"""The range lock of documents 01 and 02 as plain functions on numbers and tuples, written from the documents and not from the
Rattle code, so that the two can be compared."""
