"""Printed vouchers: codes that a guest redeems. README.md says how they are used."""
