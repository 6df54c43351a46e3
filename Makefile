# make                          builds the program, its manual page and the completions of bash, zsh and fish, in out/
# make install                  puts them below PREFIX, and that below DESTDIR where it is given
# make uninstall                takes them away again
#
# PROGRAM=crates/birch/out/birch takes the proved program (./birch --proved builds it).

PREFIX = /usr/local
PROGRAM = out/birch
PAGES = out/pages
TARGET = $(DESTDIR)$(PREFIX)
INSTALLED = bin/birch share/man/man1/birch.1 share/bash-completion/completions/birch \
	share/zsh/site-functions/_birch share/fish/vendor_completions.d/birch.fish share/doc/birch/LICENSE

all:
	test $(PROGRAM) != out/birch || ./birch --version
	python3 packaging/pages.py $(PROGRAM) $(PAGES)

install: all
	for it in $(dir $(INSTALLED)); do install -d "$(TARGET)/$$it"; done
	install -m 755 $(PROGRAM) "$(TARGET)/bin/birch"
	install -m 644 $(PAGES)/birch.1 "$(TARGET)/share/man/man1/birch.1"
	install -m 644 $(PAGES)/birch.bash "$(TARGET)/share/bash-completion/completions/birch"
	install -m 644 $(PAGES)/_birch "$(TARGET)/share/zsh/site-functions/_birch"
	install -m 644 $(PAGES)/birch.fish "$(TARGET)/share/fish/vendor_completions.d/birch.fish"
	install -m 644 LICENSE "$(TARGET)/share/doc/birch/LICENSE"

uninstall:
	for it in $(INSTALLED); do rm -f "$(TARGET)/$$it"; done
	rmdir "$(TARGET)/share/doc/birch" 2>/dev/null || true

.PHONY: all install uninstall
