# What is installed: the library, static and shared, its header, its description for pkg-config, the register program, and the one behind `register --no-placement`. What is
# proved is built by bin/prove; make only puts it in its place.
#   make                          the library in target/lib, the programs in target/bin
#   make install PREFIX= DESTDIR=
#   make uninstall PREFIX= DESTDIR=
#   make check                    tests/outside and tests/streams
PREFIX = /usr/local
DESTDIR =

lib = $(DESTDIR)$(PREFIX)/lib
include = $(DESTDIR)$(PREFIX)/include
bin = $(DESTDIR)$(PREFIX)/bin

all: target/lib/libhwemiduk.so.0 target/bin/register target/bin/why-none

target/staticlib/libexport.a:
	bin/prove export

target/bin/register:
	bin/prove register

target/lib/libhwemiduk.so.0: target/staticlib/libexport.a bin/build-shared
	bin/build-shared

target/bin/why-none: target/staticlib/libexport.a include/hwemiduk.h bin/why-none.c bin/build-why-none
	bin/build-why-none

install: all
	mkdir -p '$(lib)/pkgconfig' '$(include)' '$(bin)'
	cp include/hwemiduk.h '$(include)/hwemiduk.h'
	cp target/lib/libhwemiduk.a '$(lib)/libhwemiduk.a'
	cp target/lib/libhwemiduk.so.0 '$(lib)/libhwemiduk.so.0'
	ln -sf libhwemiduk.so.0 '$(lib)/libhwemiduk.so'
	sed -e 's|@PREFIX@|$(PREFIX)|' -e "s|@VERSION@|$$(cat VERSION)|" hwemiduk.pc.in >'$(lib)/pkgconfig/hwemiduk.pc'
	cp target/bin/register '$(bin)/register-program'
	cp target/bin/why-none '$(bin)/register-why-none'
	cp bin/register '$(bin)/register'
	chmod 644 '$(include)/hwemiduk.h' '$(lib)/libhwemiduk.a' '$(lib)/pkgconfig/hwemiduk.pc'
	chmod 755 '$(lib)/libhwemiduk.so.0' '$(bin)/register' '$(bin)/register-program' '$(bin)/register-why-none'

uninstall:
	rm -f '$(include)/hwemiduk.h' '$(lib)/libhwemiduk.a' '$(lib)/libhwemiduk.so.0' '$(lib)/libhwemiduk.so' '$(lib)/pkgconfig/hwemiduk.pc' \
	    '$(bin)/register' '$(bin)/register-program' '$(bin)/register-why-none'

check:
	tests/outside
	tests/streams

.PHONY: all install uninstall check
