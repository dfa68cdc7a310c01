"""What cashiers do: sell, find an account, take a sale back, end the shift. README.md says how."""
