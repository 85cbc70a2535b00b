#!/bin/sh
# Makes sample.o from sample.cpp, with clang 19 of Debian's packages (1:19.1.7-3~deb12u1).
set -eu
cd "$(dirname "$0")"
clang-19 --target=x86_64-linux-gnu -O1 -fPIC -ffunction-sections -fdata-sections -c sample.cpp -o sample.o
