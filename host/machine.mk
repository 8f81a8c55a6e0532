# How x86-64 programs are compiled and run on this machine: libpil.a and the lister are x86-64 code everywhere.
ifeq ($(shell uname -m),x86_64)
CC = gcc
CXX = g++
RUN =
else
CC = x86_64-linux-gnu-gcc
# Told -x c++ it compiles C++, and links no libm, whose cross package names files that are not there.
CXX = x86_64-linux-gnu-gcc
RUN = qemu-x86_64 -L /usr/x86_64-linux-gnu
EMULATED = -DEMULATED
endif
