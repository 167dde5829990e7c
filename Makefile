# Each line after '#:' is a line of `make help`. A bare `make` is `make help`.
FILE ?= sample/words.txt
PREFIX ?= /usr/local
# Words of the caller reach recipes by the environment, letter by letter: neither make nor a shell expands them.
WORDS = FILE ARGS PREFIX DESTDIR BINDIR INCLUDEDIR LIBDIR MANDIR BASHDIR ZSHDIR FISHDIR CRATE PART
$(foreach word,$(WORDS),$(eval override $(word) := $$(value $(word))))
export $(WORDS)
# With it `cd` would go elsewhere, and print where.
unexport CDPATH
PROGRAM = crates/lasso_lines/out/lasso_lines
CODES = crates/lasso_codes/out/lasso_codes
LIBRARY = crates/lasso_c/out/liblasso_c.a
JOINED = out/liblasso.a
# The same without proof, in a folder that make install and make c don't read.
UNPROVED = out/unproved/liblasso.a
# A name with other letters would reach make, and the shell, as more than a name; no source has one.
SOURCES = crates.txt HANDLES $(shell LC_ALL=C find crates -type f \( -path '*/src/*' -o -path '*/specs/*' -o -path '*/proofs/*' \) \
	-not -path '*/out/*' -not -path '*[!A-Za-z0-9_./+-]*') $(if $(filter-out 0,$(.SHELLSTATUS)),listed)

# Of what rt says, which crate is proved and how far it is (sed reads and writes line by line; awk need not). Where rt
# is told how many jobs to run, it does not name the crate.
PROGRESS = sed -unE -e '1{x;s/^.*$$/$(1) and the libraries below it/;x}' \
	-e '/^rt: chose --jobs [0-9]+ for /{s///;h}' \
	-e '/^so far: ([0-9]+ of [0-9]+) functions checked.*/{s//: \1 functions checked/;G;s/^(.*)\n(.*)$$/\2\1/p}' \
	-e 's/^checked ([a-z0-9_]+)[^,]*, (1|([0-9]*[02468])?0) of ([0-9]+)$$/\1: \2 of \4 functions checked/p'

# Of what rt try says, the program's own lines on standard error.
OWN_LINES = grep -vE '^(interpreter|checked|races): |^run=[a-z-]+ .*proved=no$$'

# Proves and builds a crate by a command of rt with words into a file, and by as many jobs as memory allows: rt alone plans on more
# memory. The file gets the time at which this began, so that a source that is saved meanwhile is newer.
define build
	@$(MAKE) -s toolchain
	@echo "proving and building $(1) and the libraries below it; what is proved is kept for the next time" >&2
	@jobs=$$(.ci/jobs); cd crates/$(1) && touch out.begun out.failed && \
	{ rt $(2) $${jobs:+--jobs "$$jobs"} $(3) < /dev/null 2>&1 && rm out.failed; } | tee out.log | $(PROGRESS) >&2
	@cd crates/$(1) && if [ -e out.failed ]; then cat out.log >&2; rm -f out.begun out.failed out.log; exit 1; fi
	@touch -c -r crates/$(1)/out.begun $(4)
	@rm -f crates/$(1)/out.begun crates/$(1)/out.log
	@[ -e $(4) ] || { echo "rt ended well, but has not built $(4)" >&2; exit 1; }
endef

# Writes lasso.pc, with a note, beside the library of a folder, and prints the library's paths.
define offer
	@install/pc "$$PWD/$(1)" "$$PWD/crates/lasso_c/include" "$$PWD/$(1)" '"$${libdir}/liblasso.a"' $(2) > $(1)/lasso.pc.new || { rm -f $(1)/lasso.pc.new; exit 1; }
	@mv -f $(1)/lasso.pc.new $(1)/lasso.pc
	@printf '%s\n' "header:     $$PWD/crates/lasso_c/include/lasso.h" \
		"library:    $$PWD/$(1)/liblasso.a" \
		"shared:     $$PWD/$(1)/liblasso.so.0" \
		"pkg-config: PKG_CONFIG_PATH=$$PWD/$(1) pkg-config --cflags --libs lasso"
endef

.PHONY: listed help try try-c run codes c check test verify docs fmt bench examples reference all install uninstall deb clean input crate toolchain python

#: make                              this list
help:
	@sed -n 's/^#: \{0,1\}//p' Makefile
	@echo
	@echo "FILE is a file of lines, sample/words.txt unless given; ARGS are words of lasso_lines, as ARGS='--limit 5000'."

#:
#: Run lasso_lines on a file:
#: make try FILE=path [ARGS=..]      builds lasso_lines without proof and runs it on the file, in 1 to 1.5 minutes
#:                                   (rt try: at most 1 MiB of output and 60 seconds; 20 million steps if it interprets)
try: input toolchain
	@printf '%s\n' "make try proves nothing. make run FILE='$$FILE' proves lasso_lines first: once, half an hour on four cores." >&2
	@said=$$(realpath -- "$$(mktemp)") && trap 'rm -f "$$said"' EXIT && (cd crates/lasso_lines && set -f && rt try -- $$ARGS) < "$$FILE" 2> "$$said"; status=$$?; \
	if grep -q '^checked: no-answer: .* wrote more than' "$$said"; then \
		echo "make try: the output is more than 1 MiB (1048576 bytes), the most that rt try hands on." >&2; \
		printf '%s\n' "Give fewer lines, as by head -n 1000 '$$FILE' > part && make try FILE=part, or use make run: it has no such limit." >&2; \
	elif grep -q '^checked: no-answer: .* time limit' "$$said"; then \
		echo "make try: the run took more than 60 seconds, the most that rt try gives a program. Give fewer lines, or use make run." >&2; \
	elif grep -q '^run=ended ' "$$said"; then $(OWN_LINES) "$$said" >&2; \
	else cat "$$said" >&2; fi; exit $$status

#: make try-c                        builds the library for C without proof, at the speed of the proved one, into out/unproved, in a minute, and
#:                                   prints its paths; C, Rust and Python take it in place of the proved one, as make c builds
try-c: $(UNPROVED)
	$(call offer,out/unproved,'not proved')
	@echo "Nothing of this library is proved. make c proves the same library and builds it in out: half an hour on four cores." >&2

$(UNPROVED): $(SOURCES) VERSION install/link install/unproved .ci/trying.py trials/common.py
	@$(MAKE) -s toolchain python
	@echo "building the library for C without proof" >&2
	@install/unproved out/unproved

#: make run FILE=path [ARGS=..]      proves lasso_lines if the sources changed, builds it, and runs it on the file
run: input $(PROGRAM)
	@set -f; $(PROGRAM) $$ARGS < "$$FILE"

$(PROGRAM): $(SOURCES) | input
	@$(MAKE) -s toolchain
	@.ci/libraries >&2
	$(call build,lasso_lines,run,,$(PROGRAM))

#:
#: Build:
#: make codes                        proves the program lasso_codes if the sources changed, builds it, and prints its path
codes: $(CODES)
	@printf '%s\n' "program: $$PWD/$(CODES)"

$(CODES): $(SOURCES)
	$(call build,lasso_codes,run,-- --version,$(CODES))

#: make c                            proves the library for C if the sources changed, builds it, and prints its paths
c: $(JOINED)
	$(call offer,out)

$(LIBRARY): $(SOURCES)
	$(call build,lasso_c,lib,,$(LIBRARY))

# The library for C with the toolchain's part that calls malloc in it, and the same as a shared library.
$(JOINED): $(LIBRARY) VERSION install/link
	@install/link $(LIBRARY)

#: make all                          proves and builds the programs and the libraries that make install copies
all: $(PROGRAM) $(CODES) $(JOINED)

#:
#: Install:
#: make install [PREFIX=..] [DESTDIR=..]
#:                                   copies the programs, the library for C, manual pages and completions to folders below PREFIX,
#:                                   which is /usr/local unless given; proves and builds first what is not built
install:
	@install/run check
	@$(MAKE) --no-print-directory all
	@install/run copy

#: make uninstall [PREFIX=..] [DESTDIR=..]
#:                                   removes what make install copied there, and nothing else
uninstall:
	@install/run remove

#: make deb                          the same files as a Debian package, and prints its path
deb: all
	@install/deb

#:
#: Prove and test:
#: make check CRATE=name             proves one crate, over the libraries below it, and runs its tests, or the cases of a program that has
#:                                   some; of a crate of tests it runs the tests without proof
check: crate toolchain
	@tested=no; if grep -rqF '#[test]' "crates/$$CRATE/src"; then tested=yes; fi; \
	case "$$CRATE $$tested" in \
	test_*" yes") .ci/tests "$$CRATE" ;; \
	*" yes") cd "crates/$$CRATE" && rt check && rt test ;; \
	*) cd "crates/$$CRATE" && rt check ;; \
	esac
	@if [ -d "cases/$$CRATE/modules" ]; then (cd "crates/$$CRATE" && touch out.begun && rt run -- --version < /dev/null > /dev/null && touch -r out.begun "out/$$CRATE" && rm -f out.begun) && cases/run "$$CRATE"; fi
	@if [ -d "cases/$$CRATE/modules" ]; then .ci/tests "$$CRATE"; fi

#: make test                         all that needs no proof, in 3 minutes on four cores: the checks of documents and layout, all tests,
#:                                   the tests of modules, and the cases over programs that are built without proof
test: python
	@.ci/test

#: make verify                       the gate, in about an hour: make test; proofs of all libraries and programs from nothing, by rt ci; the
#:                                   mutants (wrong bodies) that have to be refused; all cases over the proved programs; and the tools,
#:                                   without proof
verify: python
	@.ci/verify

#: make docs                         checks the documents: links, names of files and clauses, lengths of lines, parts made from the
#:                                   sources; that manual pages and completions have the options of the programs; that cases find what
#:                                   is wrong; that each mutant can be applied; that no command runs from an odd name; and shellcheck
docs:
	docs/check --try
	docs/check
	install/check --try
	install/check
	cases/run --try
	mutants/run --dry
	.ci/layout --shell
	install/trials

#: make reference                    writes the reference of all public calls to out/reference, and prints the path of its first page
reference:
	docs/reference/make

#: make examples                     builds the callers in C, Rust and Python and the recipes for many machines, runs them, and tries an
#:                                   installation; as root, since it installs what is missing of the system's packages
examples:
	examples/run
	examples/cluster/run
	examples/install

#: make bench [PART=..]              prints the tables of bench/README.md, or the one that PART names, as PART=calls
bench:
	bench/run $${PART:+"$$PART"}

#:
#: Look after the sources:
#: make fmt                          formats the code of every crate
fmt: toolchain
	@for crate in crates/*/; do (cd "$$crate" && rt fmt) || exit 1; done

#: make clean                        removes what was proved and built in this folder; what rt ci keeps stays
clean:
	rm -rf out crates/*/out crates/*/out.log crates/*/out.failed crates/*/out.begun

# Where find failed, a program that was built before could be older than a source that is not listed.
listed:
	@echo "find can't list the sources below crates" >&2; exit 1

# The file can be read, or the command ends before anything is built.
input:
	@if [ ! -e "$$FILE" ]; then printf '%s\n' "FILE=$$FILE: there is no such file" >&2; exit 1; \
	elif [ -d "$$FILE" ]; then printf '%s\n' "FILE=$$FILE: this is a folder; give a file of lines" >&2; exit 1; \
	elif [ ! -r "$$FILE" ]; then printf '%s\n' "FILE=$$FILE: the file can't be read; see its permissions" >&2; exit 1; fi

crate:
	@case "$$CRATE" in '' | *[!a-z0-9_]*) false ;; *) [ -d "crates/$$CRATE/src" ] ;; esac || \
		{ printf '%s\n' "CRATE=$$CRATE: name a crate of crates.txt, as in make check CRATE=lasso_single" >&2; exit 1; }

python:
	@command -v python3 > /dev/null || { echo "missing: python3" >&2; exit 1; }

toolchain:
	@command -v rt > /dev/null || { echo "the toolchain's command rt is not in PATH: put the folder of rt there, and try again" >&2; exit 1; }
