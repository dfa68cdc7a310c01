"""What copies add: two commands, the night's units, and the faults that they name."""

COMMANDS = {
    "copy": ("copies the site, and checks copies", "copy_command"),
    "restore": ("puts a copy back, on this machine or an empty one", "restore_command"),
}
EACH_NIGHT = "copy_command:now"
SETUP = LOOKS = "looks"
WARNINGS = {
    "copy-old": "the last copy is older than 36 hours, or there is none",
    "copy-bad": "a night's copy was refused, or none can be written",
}
