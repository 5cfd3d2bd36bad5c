"""Tests of the page: what the folder `page` offers, called from here."""
