"""The page on which a guest sees what is left. README.md says how it is used."""
