#!/bin/sh
# In the machine: makes gpiochip0 of 32 lines, and gives its line 17 to the receiver outside.
set -e
modprobe configfs
mountpoint -q /sys/kernel/config || mount -t configfs none /sys/kernel/config
[ -d /sys/module/machine_gpio ] || insmod /opt/machine/machine-gpio.ko
chip=/sys/kernel/config/gpio-sim/radio
if [ ! -d "$chip" ]; then
    mkdir "$chip" "$chip/bank0"
    echo 32 > "$chip/bank0/num_lines"
    mkdir "$chip/bank0/line17"
    echo 1 > "$chip/live"
fi
pull="/sys/devices/platform/$(cat "$chip/dev_name")/$(cat "$chip/bank0/chip_name")/sim_gpio17/pull"
exec /opt/machine/relay /dev/virtio-ports/line /dev/virtio-ports/ntp "$pull"
