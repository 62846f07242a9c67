"""Debian machines in QEMU, judged from outside: Debian's kernel, systemd, and a receiver on a GPIO line that the clock outside drives.

`image` makes the disk of Debian's packages; `vm` begins, pauses, wakes and cuts off a machine; `receiver` moves its line; `client` asks
it and judges each answer; `trial` is a machine with the package, a receiver and a client; `outside`, `inside` and `evening` are the cases.
`guest` is what a machine has beside Debian's packages. Nothing of a machine's own clocks is in what it is judged by.
"""
