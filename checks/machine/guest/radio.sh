#!/bin/sh
# In the machine: the receiver's pulses as keeper.toml has them. What was received before is read once, where a case has put it there. The
# first argument makes it another source, the second says whether it is a GPIO line or a serial port,
# the third where the feeders are.
before=/run/radio_ntpd/before
if [ -s "$before" ]; then
    cat "$before"
    : > "$before"
fi
feeders=$3
case "$2" in
serial) exec $feeders/edges_to_log.py $feeders/serial_edges.py /dev/ttyS1 ;;
*) exec $feeders/edges_to_log.py stdbuf -oL gpiomon gpiochip0 17 ;;
esac
