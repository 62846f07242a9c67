"""The supervisor: what `radio_keeper run` keeps going. It draws nothing, mails nothing, and imports
nothing that does."""
