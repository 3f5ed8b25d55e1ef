# Installs the proved program with its man page and completions: make install PREFIX=/usr/local
# What is built is taken as it is; where nothing is, ./xpush proves and builds it first.

PREFIX = /usr/local
DESTDIR =
INSTALL = install
program = crates/xpush/out/xpush
to = $(DESTDIR)$(PREFIX)

.PHONY: install uninstall

install: $(program)
	$(INSTALL) -d $(to)/bin $(to)/share/man/man1 $(to)/share/bash-completion/completions $(to)/share/zsh/site-functions
	$(INSTALL) -m 755 $(program) $(to)/bin/xpush
	$(INSTALL) -m 644 docs/xpush.1 $(to)/share/man/man1/xpush.1
	$(INSTALL) -m 644 completions/xpush.bash $(to)/share/bash-completion/completions/xpush
	$(INSTALL) -m 644 completions/_xpush $(to)/share/zsh/site-functions/_xpush

uninstall:
	rm -f $(to)/bin/xpush $(to)/share/man/man1/xpush.1
	rm -f $(to)/share/bash-completion/completions/xpush $(to)/share/zsh/site-functions/_xpush

# it depends on no source: whoever wants the newest runs ./xpush before
$(program):
	./xpush show /a >/dev/null
