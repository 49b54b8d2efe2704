# SPDX-License-Identifier: MIT OR Apache-2.0
# Installs the prebuilt programs and libraries, which ./test proved and compared byte for byte; needs a C compiler and neither Rust nor the Rattle kit.
#
#     make                                 what is not there yet: the shared library, the command, the man pages of the calls
#     make check                           installs into a folder of its own, tries all of it, and removes it again
#     make install PREFIX=/usr/local       DESTDIR=/tmp/stage puts all of it under another root
#     make uninstall                       removes it: the files that are listed in LISTED, and the folders that are empty then
#
# For x86-64 Linux with glibc 2.34 or newer; on other machines the word `reference` of this file builds the unrelated implementation, which has the same output
# and is not proved:
#
#     make reference

PREFIX = /usr/local
DESTDIR =
bindir = $(PREFIX)/bin
libdir = $(PREFIX)/lib
libexecdir = $(PREFIX)/libexec/tagetessash
includedir = $(PREFIX)/include
datadir = $(PREFIX)/share
mandir = $(datadir)/man
docdir = $(datadir)/doc/tagetessash
pkgconfigdir = $(libdir)/pkgconfig
completiondir = $(datadir)/bash-completion/completions
# where Singular and Macaulay2 look, under the prefix that they stand in themselves; elsewhere docs/GUIDE.md, "Installing", says what to set
singulardir = $(datadir)/singular/LIB
macaulay2dir = $(datadir)/Macaulay2
# a folder of sys.path under the prefix, where there is one; python3 says which
pythondir = $(shell python3 -c 'import sys, sysconfig; \
    own = [f for f in sys.path if f.startswith("$(PREFIX)/lib/") and f.endswith("-packages")]; \
    print(own[0] if own else sysconfig.get_path("purelib", "posix_prefix", {"base": "$(PREFIX)"}))' 2>/dev/null)

CC = gcc
CFLAGS ?= -O2
WARNINGS = -std=c99 -Wall -Wextra -Wpedantic
LDFLAGS ?= -Wl,-z,relro -Wl,-z,now
INSTALL = install

# what the gate proved; TAGETESSASH_PREBUILT=no takes what it built anew, as everywhere
PREBUILT = $(if $(filter no,$(TAGETESSASH_PREBUILT)),target/prebuilt,prebuilt/x86_64-linux)
PROGRAMS := $(filter-out %.a,$(shell sed -n 's/^file .* //p' $(PREBUILT)/MANIFEST))
MAJOR := $(shell sed -n 's/^\#define TAGETESSASH_VERSION //p' include/tagetessash.h)
MINOR := $(shell sed -n 's/^\#define TAGETESSASH_MINOR //p' include/tagetessash.h)
VERSION = $(MAJOR).$(MINOR)
DATE := $(shell sed -n 's/^date-released: *//p' CITATION.cff)
SONAME = libtagetessash.so.$(MAJOR)
CALLS := $(shell sed -n 's/^uint16_t \(tagetessash_[a-z]*\).*/\1/p' include/tagetessash.h)

BUILD = target/install
SHARED = $(BUILD)/$(SONAME).$(MINOR)
PAGES3 = $(BUILD)/man3/tagetessash.3 $(CALLS:%=$(BUILD)/man3/%.3)
# what the command calls, as it stands in it: files, and the folder of the printed page
CALLED := $(shell sed -n 's/.*"$$tools\/\([a-z]*\(\.[a-z]*\)\{0,1\}\)".*/tools\/\1/p' tagetessash | sort -u)
SCRIPT_FOLDERS := $(patsubst %/,%,$(sort $(dir $(wildcard $(CALLED:%=%/*.py)))))
SCRIPTS := $(filter-out $(SCRIPT_FOLDERS),$(CALLED))
DOCS = README.md CHANGELOG.md SECURITY.md CITATION.cff LICENSE-MIT LICENSE-APACHE $(filter-out docs/LANDINGS.md docs/PROVING.md,$(wildcard docs/*.md)) \
    $(wildcard docs/*.json docs/*.png)
SINGULAR = $(wildcard packages/singular/*.lib)
MACAULAY2 = $(wildcard packages/macaulay2/*.m2)
PYTHON = $(wildcard packages/python/tagetessash/*.py) packages/python/tagetessash/py.typed
# what was installed, one path a line, without DESTDIR
LISTED = $(libexecdir)/INSTALLED

all: $(BUILD)/fits $(SHARED) $(BUILD)/command $(BUILD)/command.sh $(BUILD)/tagetessash.pc $(PAGES3)

# nothing is installed that the gate did not prove from these sources
$(BUILD)/fits: FORCE | $(BUILD)
	@grep -qx "sources $$(tools/tree-hash)" $(PREBUILT)/MANIFEST || \
	    { echo "$(PREBUILT) does not belong to these sources: './tagetessash prove' proves them" >&2; exit 1; }
	@cd $(PREBUILT) && sed -n 's/^file \([0-9a-f]*\) axioms=[0-9]* \(.*\)/\1  \2/p' MANIFEST | sha256sum -c --quiet

$(BUILD):
	mkdir -p $@

# The object is position independent and has no data; only what the header names is seen from outside, each function with the version that it came with.
$(BUILD)/symbols: include/tagetessash.h install/symbols.awk | $(BUILD)
	awk -f install/symbols.awk include/tagetessash.h >$@.new && mv $@.new $@

$(SHARED): $(PREBUILT)/libtagetessash.a $(BUILD)/symbols
	$(CC) -shared $(LDFLAGS) -Wl,-z,noexecstack -Wl,-soname,$(SONAME) -Wl,--version-script,$(BUILD)/symbols -Wl,--no-undefined \
	    -Wl,--whole-archive $(PREBUILT)/libtagetessash.a -Wl,--no-whole-archive -o $@

# The command's words and programs, as the script has them.
$(BUILD)/words.h: tagetessash | $(BUILD)
	sed -n 's/^    \([a-z]*\)) what=[a-z]* last="\{0,1\}\([^";]*[^"; ]\)"\{0,1\} *; ready \([a-z_]*\) ;;$$/    {"\1", "\2", "\3"},/p' tagetessash >$@
	@test "$$(wc -l <$@)" -eq "$$(grep -c ' ; ready [a-z_]* ;;$$' tagetessash)"

# the next three name folders, which may be others each time
$(BUILD)/command: install/command.c $(BUILD)/words.h FORCE
	$(CC) $(WARNINGS) $(CPPFLAGS) $(CFLAGS) $(LDFLAGS) -I$(BUILD) '-DLIBEXECDIR="$(libexecdir)"' \
	    "-DLIBEXEC=\"$$(realpath -m -s --relative-to='$(bindir)' '$(libexecdir)')\"" install/command.c -o $@

$(BUILD)/command.sh: tagetessash FORCE | $(BUILD)
	sed 's|^installed=$$|installed=$(VERSION)|; s|^me=\./tagetessash$$|me=tagetessash|; s|^docs=docs$$|docs=$(docdir)|' tagetessash >$@
	@for line in installed=$(VERSION) me=tagetessash 'docs=$(docdir)'; do grep -qxF "$$line" $@ || { echo "tagetessash has no line for $$line" >&2; exit 1; }; done

$(BUILD)/tagetessash.pc: install/tagetessash.pc.in FORCE | $(BUILD)
	sed 's|@prefix@|$(PREFIX)|; s|@libdir@|$(libdir)|; s|@includedir@|$(includedir)|; s|@version@|$(VERSION)|' install/tagetessash.pc.in >$@

# the pages of the calls are the header's comments
$(BUILD)/man3/%.3: include/tagetessash.h install/manual.awk
	@mkdir -p $(BUILD)/man3
	awk -v page=$* -v version=$(VERSION) -v date=$(DATE) -f install/manual.awk include/tagetessash.h >$@.new && mv $@.new $@

# Each line of the list is a file or link that was put there; what an installation before this one put there and this one has not goes.
install: all
	@set -eu; umask 022; list=$(BUILD)/list; : >$$list; \
	if [ -r $(DESTDIR)$(LISTED) ]; then sort $(DESTDIR)$(LISTED); fi >$$list.before; \
	put() { mode=$$1 to=$$2; shift 2; for file; do \
	    $(INSTALL) -D -m $$mode "$$file" "$(DESTDIR)$$to/$${file##*/}"; echo "$$to/$${file##*/}" >>$$list; done; }; \
	as() { $(INSTALL) -D -m $$1 "$$3" "$(DESTDIR)$$2"; echo "$$2" >>$$list; }; \
	link() { ln -sf "$$1" "$(DESTDIR)$$2"; echo "$$2" >>$$list; }; \
	as 755 $(bindir)/tagetessash $(BUILD)/command; \
	as 755 $(libexecdir)/command $(BUILD)/command.sh; \
	put 755 $(libexecdir) $(PROGRAMS:%=$(PREBUILT)/%); \
	put 644 $(libexecdir) $(PREBUILT)/MANIFEST; \
	script() { if [ -x "$$2" ]; then put 755 $$1 "$$2"; else put 644 $$1 "$$2"; fi; }; \
	for file in $(SCRIPTS); do script $(libexecdir) "$$file"; done; \
	for folder in $(SCRIPT_FOLDERS); do for file in $$folder/*.py; do script $(libexecdir)/$${folder##*/} "$$file"; done; done; \
	put 644 $(libdir) $(PREBUILT)/libtagetessash.a; \
	put 755 $(libdir) $(SHARED); \
	link $(notdir $(SHARED)) $(libdir)/$(SONAME); \
	link $(SONAME) $(libdir)/libtagetessash.so; \
	put 644 $(includedir) include/tagetessash.h; \
	put 644 $(pkgconfigdir) $(BUILD)/tagetessash.pc; \
	for page in docs/*.1 docs/*.5; do \
	    sed 's|docs/\([A-Z]\)|$(docdir)/\1|g; s| examples/| $(docdir)/examples/|g' $$page >$(BUILD)/$${page##*/}; \
	    put 644 $(mandir)/man$${page##*.} $(BUILD)/$${page##*/}; done; \
	put 644 $(mandir)/man3 $(PAGES3); \
	as 644 $(completiondir)/tagetessash install/completion.bash; \
	for text in $(DOCS); do \
	    case $$text in *.md) sed 's|](docs/|](|g; s|](\.\./|](|g' $$text >$(BUILD)/$${text##*/}; text=$(BUILD)/$${text##*/} ;; esac; \
	    put 644 $(docdir) $$text; done; \
	put 644 $(docdir)/examples examples/*.txt examples/README.md bindings/c/*.c bindings/c/*.h; \
	put 644 $(singulardir) $(SINGULAR); \
	put 644 $(macaulay2dir) $(MACAULAY2); \
	if [ -n "$(pythondir)" ]; then put 644 $(pythondir)/tagetessash $(PYTHON); fi; \
	echo $(LISTED) >>$$list; \
	sort $$list | comm -23 $$list.before - | while IFS= read -r path; do rm -f "$(DESTDIR)$$path"; done; \
	$(INSTALL) -D -m 644 $$list $(DESTDIR)$(LISTED)
	@echo "installed: $$(wc -l <$(BUILD)/list) files under $(DESTDIR)$(PREFIX)"

uninstall:
	@set -eu; list=$(DESTDIR)$(LISTED); [ -r $$list ] || { echo "$$list is not there: nothing is known to be installed" >&2; exit 1; }; \
	cp $$list $(DESTDIR)$(LISTED).removed; \
	while IFS= read -r path; do rm -f "$(DESTDIR)$$path"; done <$(DESTDIR)$(LISTED).removed; \
	sed 's|/[^/]*$$||' $(DESTDIR)$(LISTED).removed | sort -u >$(DESTDIR)$(LISTED).folders; \
	folders=$$(cat $(DESTDIR)$(LISTED).folders); rm -f $(DESTDIR)$(LISTED).removed $(DESTDIR)$(LISTED).folders; \
	printf '%s\n' "$$folders" | while IFS= read -r folder; do \
	    while [ "$$folder" != "$(PREFIX)" ] && [ -n "$$folder" ] && rmdir "$(DESTDIR)$$folder" 2>/dev/null; do folder=$${folder%/*}; done; done; \
	rmdir "$(DESTDIR)$(PREFIX)" 2>/dev/null || :

# an installation under a folder of its own
check: all
	install/check

# the unrelated implementation, for any machine that has Rust
reference:
	cargo build --release --offline --manifest-path reference/Cargo.toml
	@echo "tests/target/release/reference sheet FILE | ./tagetessash verify FILE -"

clean:
	rm -rf $(BUILD)

FORCE:

.PHONY: all install uninstall check reference clean FORCE
