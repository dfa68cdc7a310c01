"""What the front adds: its part of the set-up, and the faults that it names."""

SETUP, LOOKS = "setup", "looks"
CRITICAL = {
    "front-wrong": "FreeRADIUS lets in whom it should not, or gives a plan that there is not",
    "users-away": "the database of users does not answer: logins are refused",
    "reports-wait": "reports wait for radacctd, and are not answered",
}
WARNINGS = {"device-secret": "FreeRADIUS ignores a device: the device has another secret",
            "reports-aside": "radacctd does not take some reports, and nobody was charged",
            "cut-off": "an access server that nobody asks: whoever uses too much goes on there"}
NOTES = {"device-deaf": "an access server that answered no Disconnect-Request in the last hour"}
