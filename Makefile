# Installs the library for hosts, and the desk tool with its completions and man pages, from what is already built. It needs neither rt nor a
# prover; man pages are made if help2man is installed.
#
#     make install                        under /usr/local
#     make install PREFIX=/usr DESTDIR=/tmp/root

PREFIX ?= /usr/local
DESTDIR ?=
INSTALL ?= install

name := luuxidgaan
# A host that was built for one version runs with every later library of that version.
version := $(shell sed -n 's/^\#define XA_VERSION \([0-9]*\)$$/\1/p' include/$(name).h)
archive := target/staticlib/libcabi.a
tool := host/target/release/luux
built := target/install
shared := lib$(name).so.$(version)
to := $(DESTDIR)$(PREFIX)

# Where each shell looks for the completions of a command, under the prefix.
bash := share/bash-completion/completions/luux
zsh := share/zsh/site-functions/_luux
fish := share/fish/vendor_completions.d/luux.fish
man := share/man/man1

.PHONY: all install uninstall clean always

all: $(built)/$(shared) $(built)/$(name).pc $(tool) $(built)/completions/done $(built)/man/done

$(archive):
	@echo "$@ is missing: tools/staticlib proves and builds it" >&2; exit 1

$(tool):
	@echo "$@ is missing: ./luux --version builds it" >&2; exit 1

# Exports only the calls of the header.
$(built)/exported: Makefile
	@mkdir -p $(built)
	@echo '{ global: xa_*; local: *; };' > $@

$(built)/$(shared): $(archive) $(built)/exported
	$(CC) -shared -o $@ -Wl,-soname,$(shared) -Wl,--version-script=$(built)/exported -Wl,-z,relro,-z,now \
	    -Wl,--whole-archive $(archive) -Wl,--no-whole-archive

# Made every time, since it names the prefix.
$(built)/$(name).pc: always
	@mkdir -p $(built)
	@printf '%s\n' 'prefix=$(PREFIX)' 'includedir=$${prefix}/include' 'libdir=$${prefix}/lib' '' 'Name: $(name)' \
	    'Description: Reads, judges and draws runs of X-ray angiography; proved' 'Version: $(version)' \
	    'Cflags: -I$${includedir}' 'Libs: -L$${libdir} -l$(name)' > $@

$(built)/completions/done: $(tool)
	@mkdir -p $(built)/completions
	@for shell in bash zsh fish; do $(tool) completions $$shell > $(built)/completions/$$shell || exit 1; done
	@echo > $@

# Made again if help2man was missing the last time.
$(built)/man/done: $(tool) host/man $(if $(wildcard $(built)/man/man1/luux.1),,always)
	@rm -rf $(built)/man && mkdir -p $(built)/man/man1
	@if command -v help2man > /dev/null; then host/man $(CURDIR)/$(tool) $(built)/man; \
	    else echo "no man pages are made: help2man is missing" >&2; fi
	@echo > $@

install: all
	$(INSTALL) -d $(to)/include $(to)/lib/pkgconfig $(to)/bin
	$(INSTALL) -m 644 include/$(name).h $(to)/include/
	$(INSTALL) -m 644 $(archive) $(to)/lib/lib$(name).a
	$(INSTALL) -m 755 $(built)/$(shared) $(to)/lib/
	ln -sf $(shared) $(to)/lib/lib$(name).so
	$(INSTALL) -m 644 $(built)/$(name).pc $(to)/lib/pkgconfig/
	$(INSTALL) -m 755 $(tool) $(to)/bin/luux
	$(INSTALL) -d $(dir $(to)/$(bash)) $(dir $(to)/$(zsh)) $(dir $(to)/$(fish)) $(to)/$(man)
	$(INSTALL) -m 644 $(built)/completions/bash $(to)/$(bash)
	$(INSTALL) -m 644 $(built)/completions/zsh $(to)/$(zsh)
	$(INSTALL) -m 644 $(built)/completions/fish $(to)/$(fish)
	for page in $(built)/man/man1/*.1; do [ ! -e $$page ] || $(INSTALL) -m 644 $$page $(to)/$(man)/ || exit 1; done

uninstall:
	rm -f $(to)/include/$(name).h $(to)/lib/lib$(name).a $(to)/lib/lib$(name).so $(to)/lib/$(shared) \
	    $(to)/lib/pkgconfig/$(name).pc $(to)/bin/luux $(to)/$(bash) $(to)/$(zsh) $(to)/$(fish) $(to)/$(man)/luux.1 $(to)/$(man)/luux-*.1

clean:
	rm -rf $(built)
