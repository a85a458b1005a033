# Installs what the scripts build, and makes an archive of it. The library is built by
# ./build-library, the command by ./utvpi; both do nothing where nothing changed.
#
#   make                              builds the library and the command
#   make install PREFIX=/usr/local    installs them, the header and the manual pages; DESTDIR
#                                     may name a folder that stands for /
#   make dist                         makes an archive of the same in target/dist/
#   make target/examples/merge        builds the example that merges logs
PREFIX ?= /usr/local
LIBDIR ?= $(PREFIX)/lib
CC ?= cc
CFLAGS ?= -std=c11 -O2 -Wall -Wextra
export PREFIX LIBDIR DESTDIR CC

.PHONY: all install dist FORCE

all:
	@./utvpi --help > /dev/null

target/lib/libutvpi.a: FORCE
	@./build-library

install: all
	@packaging/install

dist: all target/examples/merge
	@packaging/dist

target/examples/merge: $(wildcard examples/merge/*.[ch]) include/utvpi.h target/lib/libutvpi.a
	@mkdir -p $(@D)
	@$(CC) $(CFLAGS) -Iinclude -o $@ $(filter %.c %.a,$^)
