# The usual targets, over the scripts that do the work: each says more by --help.
PREFIX = /usr/local
DESTDIR =

build:
	./build fiocut drive fiocut_node fiocut_seen

test:
	./test

# Installs what `make build` has built, with pages, man pages, completions, examples and the unit of a
# fleet's servers, which it doesn't enable.
install:
	tools/install --prefix "$(PREFIX)" --destdir "$(DESTDIR)"

uninstall:
	tools/install --prefix "$(PREFIX)" --destdir "$(DESTDIR)" --remove

# What is handed on of a release: tarballs of programs that need no library, and a package for Debian.
dist:
	tools/dist $(TARGETS)

deb:
	tools/dist --deb $(TARGETS)

clean:
	rm -rf crates/*/out harness/out release/out bench/out

.PHONY: build test install uninstall dist deb clean
