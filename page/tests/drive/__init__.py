"""Browsers without a window, driven as a person does: by mouse and keys."""
