#!/bin/sh
# Prints how many crates the gate proves at once: as many as there are processors, and fewer where free memory hasn't 4 GB for each. A proof
# takes up to 3 GB, and `rt ci` doesn't look at the memory where it is told the number (`RT_JOBS`).
processors=$(nproc)
room=$(awk '/^MemAvailable:/ { print int($2 / 4000000) }' /proc/meminfo)
lanes=$((room < processors ? room : processors))
echo $((lanes > 1 ? lanes : 1))
