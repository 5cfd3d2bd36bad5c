"""What takes too long for the gate, or needs too much: called by hand."""
