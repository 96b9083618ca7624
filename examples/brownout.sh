#!/bin/sh
# Prints a replay script: a board starts, runs in nominal, and then the rail stays at 10,000 mV until the board has gone
# through emergency and back by its period. A session sheet cannot show this: it has at most 4,096 ticks, and safety is
# left for emergency only after 6,000.
ticks() { yes "T $2 00000000 -" | head -n "$1"; }
echo 'B 01 00000003 00000001'
ticks 60 3A98
ticks 66100 2710
