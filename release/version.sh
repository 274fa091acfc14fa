#!/bin/sh
# Prints the version of the program and of the library, as c/ymx.h has it.
set -eu
sed -n 's/^#define YMX_VERSION_\(MAJOR\|MINOR\|PATCH\) //p' "$(dirname "$0")/../c/ymx.h" | paste -sd .
