#!/bin/sh
mkdir -p "$LOG"; echo "lib is $LIB" > "$LOG/started"
