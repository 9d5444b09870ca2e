"""Reads configurations, scripts and words by docs/FORMATS.md, and says what is wrong with them."""
