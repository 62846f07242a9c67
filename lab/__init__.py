"""The laboratory: what stands in for senders, receivers, clients and servers where checks, benches and tools try the
program and the keeper, and the second reading that they are compared with. It shares no code with either.

`minutes`, `receiver` the senders and a receiver in software; `packets`, `client` NTP on the loopback; `program` where
the built program is; `held` runs of it that a supervisor holds; `kept` a keeper of receivers in software, which
`kept_client` asks, and `kept_machine` what others' work does to both; `ends` how a program of Python ends.
`grammar` reads what the program may write, and `model` says what it has to write.
"""
