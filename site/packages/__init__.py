"""Packages, and the logins that are sold by them. README.md says how they are used."""
