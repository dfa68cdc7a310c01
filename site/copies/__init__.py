"""The night's copy of a site, and its restore."""
