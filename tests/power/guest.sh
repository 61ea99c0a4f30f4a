#!/bin/busybox sh
# The first process of the guest. It runs each line that comes on the serial port 1 as a command of this shell, and
# answers there: a line (a word, a number, a length) and so many bytes. What the program puts out goes to port 2, what
# shim.c reports to port 3.

tell() { # WORD NUMBER FILE
    echo "$1 $2 $(stat -c %s "$3")" >&3
    cat "$3" >&3
}

did() { # COMMAND ..
    "$@" >/tmp/said 2>&1
    tell did $? /tmp/said
}

get() { # FILE
    if [ -e "$1" ]; then
        cp "$1" /tmp/got
        tell did $? /tmp/got
    else
        tell did 2 /dev/null
    fi
}

run() { # NAME=VALUE .. WORD ..: its end is told as `exit`, with its standard error
    rm -f /tmp/program /input
    mkfifo /input # a new one, so that nothing is left in it that a killed program has not read
    exec 4>&- 6<>/input
    exec 4>/input 7</input 6>&-
    {
        env "$@" <&7 >&5 2>/tmp/errors 3<&- 7<&- &
        echo $! >/tmp/program
        wait $!
        tell exit $? /tmp/errors
    } 4>&- &
    exec 7<&-
    until [ -s /tmp/program ]; do usleep 1000; done
    did true
}

noise() { # changes other files until it is killed
    while rm -f /mnt/noise*; do
        for at in 1 2 3 4 5 6 7; do
            dd if=/bin/busybox of=/mnt/noise$at bs=$((at * 911)) count=$at conv=fsync
            dd if=/bin/busybox of=/mnt/noise$((at / 2)) bs=$((at * 613)) count=1 oflag=append
            mv -f /mnt/noise$at /mnt/noise0
        done
    done
}

/bin/busybox --install -s /bin
mount -t proc proc /proc
mount -t devtmpfs dev /dev
while read -r module; do insmod "$module"; done </modules
until ls /dev/vport*p3 >/dev/null 2>&1; do usleep 10000; done
exec 3<>"$(echo /dev/vport*p1)" 5>"$(echo /dev/vport*p2)" 9>"$(echo /dev/vport*p3)"
did true
while read -r line <&3; do eval "$line"; done
