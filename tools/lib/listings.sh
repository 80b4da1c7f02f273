#!/bin/sh
# listings.sh PROGRAM: for each line `NUMBER BYTES BYTES..` a line `packet NUMBER`, and below it what the program's `decode` says of the packet with these bytes, and of
# those in its tunnels. Bytes are octal numbers behind backslashes, which the shell itself turns into bytes, since a trace has many packets.
list() {
    # shellcheck disable=SC2059
    printf "$1" | "$program" decode || [ $? = 8 ] || exit
}
program=$1
while read -r number outer inner; do
    echo "packet $number"
    list "$outer"
    for bytes in $inner; do
        echo 'in the tunnel'
        list "$bytes"
    done
done
