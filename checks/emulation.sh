# What checks that run arm64 programs on x86-64 share: they source this, and have `fails`. The kernel runs such programs by QEMU from `take_arm64` to
# `leave_arm64`. Needs root and qemu-user-static.
formats=/proc/sys/fs/binfmt_misc
registered=
# An ELF header of 64 bits, little-endian, an executable or a shared object, of machine 183. `F` opens QEMU at once, so the Debian need not have it.
take_arm64() {
    [ -e $formats/register ] || mount -t binfmt_misc none $formats || fails 'the kernel has no binfmt_misc'
    if [ ! -e $formats/qemu-aarch64 ]; then
        emulator=$(command -v qemu-aarch64-static) || fails 'there is no qemu-aarch64-static: apt install qemu-user-static'
        printf '%s' ':qemu-aarch64:M::\x7fELF\x02\x01\x01\x00\x00\x00\x00\x00\x00\x00\x00\x00\x02\x00\xb7\x00:\xff\xff\xff\xff\xff\xff\xff\x00\xff\xff\xff\xff\xff\xff\xff\xff\xfe\xff\xff\xff:'"$emulator:F" > $formats/register || fails 'QEMU is not taken'
        registered=yes
    fi
}
leave_arm64() {
    [ -z "$registered" ] || echo -1 > $formats/qemu-aarch64
}
