"""What all parts use: errors, names, cells, workbooks and texts. It needs no library."""
