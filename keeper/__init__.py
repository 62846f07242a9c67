"""The keeper of a radio_ntpd station: it runs the server for good and shows how it is.
`./radio_keeper` starts it."""

VERSION = "0.3.0"
