# The demo, the proved program, its installation, its package, and the tests. PREFIX is where `make install` puts the program.
PREFIX ?= /usr/local
PROGRAM ?= crates/cqlpgn/out/cqlpgn
PIECES ?= crates/pgnpieces/out/pgnpieces
JSON ?= crates/pgnjson/out/pgnjson
BIN = $(DESTDIR)$(PREFIX)/bin
SHARE = $(DESTDIR)$(PREFIX)/share
# Where the Python package goes: where this interpreter looks below PREFIX, if anywhere.
PYTHON ?= /usr/bin/env python3
MODULES ?= $(shell $(PYTHON) -c 'import site; wanted = "$(PREFIX)/lib/"; \
  print(next((path for path in site.getsitepackages() if path.startswith(wanted)), wanted + "python3/site-packages"))')
COMMANDS = $(notdir $(wildcard python/bin/*))
ZSH ?= site-functions

.PHONY: demo build install uninstall deb test test-tools cases clean

# The games of the sample archive with a white queen on f7, by a program that is compiled without its proofs.
demo:
	@bash scripts/demo.sh

# Proves the three programs and all below them, crate by crate, and builds them.
build:
	@bash scripts/build.sh

# Installs what `make build` has built, with manual pages, completion for bash, zsh and fish, a syntax file for vim, the Python package
# with its commands, and the scripts for many machines.
install:
	@test -x $(PROGRAM) -a -x $(PIECES) -a -x $(JSON) || { echo "make build comes first"; exit 1; }
	install -D $(PROGRAM) $(BIN)/cqlpgn
	install -D $(PIECES) $(BIN)/pgnpieces
	install -D $(JSON) $(BIN)/pgnjson
	install -d $(DESTDIR)$(MODULES)
	cd python/src && find cqlpgn -type f ! -path '*/__pycache__/*' | xargs -I{} install -D -m 644 {} $(DESTDIR)$(MODULES)/{}
	rm -f $(COMMANDS:%=$(BIN)/%)
	cp -P $(COMMANDS:%=python/bin/%) $(BIN)
	install -d $(SHARE)/cqlpgn/machines
	install $(filter-out %.py,$(wildcard machines/*)) $(SHARE)/cqlpgn/machines
	install -m 644 machines/*.py $(SHARE)/cqlpgn/machines
	rm -rf $(SHARE)/cqlpgn/many
	ln -s machines $(SHARE)/cqlpgn/many
	install -D -m 644 docs/cqlpgn.1 $(SHARE)/man/man1/cqlpgn.1
	install -m 644 docs/pgnpieces.1 docs/pgnjson.1 $(SHARE)/man/man1
	install -m 644 $(COMMANDS:%=docs/%.1) $(SHARE)/man/man1
	mkdir -p $(SHARE)/bash-completion/completions $(SHARE)/fish/vendor_completions.d
	for name in pgnjson pgnpieces $(COMMANDS); do \
	  ln -sf cqlpgn $(SHARE)/bash-completion/completions/$$name; \
	  ln -sf cqlpgn.fish $(SHARE)/fish/vendor_completions.d/$$name.fish; \
	done
	install -d $(SHARE)/man/man7
	contrib/manual docs/LANGUAGE.md > $(SHARE)/man/man7/cql.7
	contrib/manual docs/ARCHIVE.md > $(SHARE)/man/man7/pgn-archive.7
	install -D -m 644 contrib/completion/cqlpgn.bash $(SHARE)/bash-completion/completions/cqlpgn
	install -D -m 644 contrib/completion/_cqlpgn $(SHARE)/zsh/$(ZSH)/_cqlpgn
	install -D -m 644 contrib/completion/cqlpgn.fish $(SHARE)/fish/vendor_completions.d/cqlpgn.fish
	install -D -m 644 contrib/cqlpgn-desk.desktop $(SHARE)/applications/cqlpgn-desk.desktop
	install -D -m 644 contrib/vim/syntax/cql.vim $(SHARE)/vim/vimfiles/syntax/cql.vim
	install -D -m 644 contrib/vim/ftdetect/cql.vim $(SHARE)/vim/vimfiles/ftdetect/cql.vim
	install -d $(SHARE)/doc/cqlpgn/docs $(SHARE)/doc/cqlpgn/examples
	install -m 644 README.md CHANGELOG.md LICENSE-MIT LICENSE-APACHE $(SHARE)/doc/cqlpgn
	install -m 644 docs/*.md $(SHARE)/doc/cqlpgn/docs
	install -m 644 examples/* $(SHARE)/doc/cqlpgn/examples

# Takes away what install has put, wherever the completion for zsh went, and the folders of others that it leaves empty.
uninstall:
	rm -f $(SHARE)/man/man7/cql.7
	rm -rf $(DESTDIR)$(MODULES)/cqlpgn
	[ ! -d $(DESTDIR)$(MODULES) ] || (cd $(DESTDIR)$(PREFIX) && rmdir -p --ignore-fail-on-non-empty $(MODULES:$(PREFIX)/%=%))
	for name in cqlpgn pgnpieces pgnjson $(COMMANDS); do \
	  rm -f $(BIN)/$$name $(SHARE)/man/man1/$$name.1; \
	  rm -f $(SHARE)/bash-completion/completions/$$name $(SHARE)/fish/vendor_completions.d/$$name.fish; \
	done
	rm -f $(SHARE)/zsh/site-functions/_cqlpgn $(SHARE)/zsh/vendor-completions/_cqlpgn
	rm -f $(SHARE)/zsh/$(ZSH)/_cqlpgn $(SHARE)/vim/vimfiles/syntax/cql.vim $(SHARE)/vim/vimfiles/ftdetect/cql.vim
	rm -f $(SHARE)/applications/cqlpgn-desk.desktop
	rm -rf $(SHARE)/cqlpgn $(SHARE)/doc/cqlpgn $(SHARE)/man/man7/pgn-archive.7
	for folder in bash-completion/completions fish/vendor_completions.d zsh/site-functions zsh/vendor-completions \
	  vim/vimfiles/syntax vim/vimfiles/ftdetect applications; do \
	  [ ! -d $(SHARE)/$$folder ] || (cd $(SHARE) && rmdir -p --ignore-fail-on-non-empty $$folder); \
	done

# A Debian package of what `make build` has built, in out/. It needs debhelper and dpkg-dev.
deb:
	@test -x $(PROGRAM) -a -x $(PIECES) -a -x $(JSON) || { echo "make build comes first"; exit 1; }
	rm -rf out/deb
	mkdir -p $(patsubst %,out/deb/cqlpgn/crates/%/out,cqlpgn pgnpieces pgnjson)
	cp -r Makefile README.md LICENSE-MIT LICENSE-APACHE debian docs examples contrib machines python out/deb/cqlpgn
	cp $(PROGRAM) out/deb/cqlpgn/crates/cqlpgn/out/cqlpgn
	cp $(PIECES) out/deb/cqlpgn/crates/pgnpieces/out/pgnpieces
	cp $(JSON) out/deb/cqlpgn/crates/pgnjson/out/pgnjson
	cp CHANGELOG.md out/deb/cqlpgn
	cd out/deb/cqlpgn && env -u PROGRAM -u PIECES -u JSON dpkg-buildpackage -us -uc -b
	mv out/deb/cqlpgn*.deb out/
	rm -rf out/deb

# All proofs, wrong programs and tests. It changes nothing on the machine, and names what it skips for want of a package of Debian.
test:
	bash .ci/run --as-is

# Installs what the tests want of Debian.
test-tools:
	scripts/test-tools

# What asks cqlpgn, the cases among it, and what the pages show, over the programs that are built.
cases:
	@test -x $(PROGRAM) -a -x $(PIECES) -a -x $(JSON) || { echo "make build comes first"; exit 1; }
	CQLPGN=$(PROGRAM) PGNPIECES=$(PIECES) PGNJSON=$(JSON) scripts/tests tests/cqlpgn tests/pages

# Removes what checks and builds have kept; the next ones take as long as the first.
clean:
	rm -rf crates/*/out out
