"""What the pages take from the repository's own files, so that nobody types it twice. `docs/write` calls it."""
