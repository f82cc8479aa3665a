PROGRAM = crates/invdesk/out/invdesk
PREFIX ?= /usr/local
BELOW = $(DESTDIR)$(PREFIX)
DOCUMENTS = $(BELOW)/share/doc/invdesk

# What there is: the targets below, each with what stands behind its '##'.
help: ## lists what there is to make
	@awk -F ':.*## ' '/^[a-z]+:.*## / { printf "make %-10s %s\n", $$1, $$2 }' $(firstword $(MAKEFILE_LIST))

# A first look: the first example, run before any proof, in about three minutes. It is slow, and nothing is proved of
# it.
try: ## the first example, unproved, in about three minutes
	cd crates/invdesk && rt try < stdin

# What to run after a first change: every crate's tests, the worked examples, and the program with examples, documents,
# lists and beside Python, all unproved. It is some 50 minutes of a processor, which are shared by as many as there are.
# 'make check CRATE=order_core' runs what stands on that crate, and 'make check JOBS=2' at most two side by side.
check: ## every test and the program, unproved: some 50 minutes of a processor; CRATE=order_core, JOBS=2
	python3 tools/check.py $(if $(CRATE),--crate $(CRATE)) $(if $(JOBS),--jobs $(JOBS))

# The program, built once it is proved, on the first example. Libraries are proved side by side.
run: ## proves and builds the program, in one to two hours, and runs the first example
	python3 tools/build.py < crates/invdesk/stdin

# The gate: every proof from nothing, the must-fail edits, the tests, and the program that this built, beside Python's
# libraries, curl, and the rules written once more. 'make test JOBS=2' runs two proofs side by side, and not as many as
# there are processors with 5.5 GB.
test: ## the gate: all proofs, wrong bodies and tests, in two to three hours; JOBS=2
	python3 tools/gate.py $(if $(JOBS),--jobs $(JOBS))

# The program, built once it is proved.
build: ## proves and builds the program
	python3 tools/build.py < /dev/null

# Installs the program with its page of man, the completions of bash, the unit of systemd with its user, and the
# documents. Whoever packs it installs it below DESTDIR first: 'make install DESTDIR=/tmp/x PREFIX=/usr'.
install: build ## installs the program with man page, completions, unit and documents; PREFIX=/usr/local, DESTDIR=
	install -D -m 755 $(PROGRAM) $(BELOW)/bin/invdesk
	install -D -m 644 contrib/invdesk.1 $(BELOW)/share/man/man1/invdesk.1
	install -D -m 644 contrib/invdesk.bash $(BELOW)/share/bash-completion/completions/invdesk
	install -D -m 644 contrib/invdesk.sysusers $(BELOW)/lib/sysusers.d/invdesk.conf
	install -d $(BELOW)/lib/systemd/system
	sed 's|/usr/bin/|$(PREFIX)/bin/|' contrib/invdesk.service > $(BELOW)/lib/systemd/system/invdesk.service
	chmod 644 $(BELOW)/lib/systemd/system/invdesk.service
	install -d $(DOCUMENTS)/contrib
	umask 022 && cp -R README.md docs $(DOCUMENTS) && cp contrib/*.sql $(DOCUMENTS)/contrib

# Takes away what was installed. Books stay.
uninstall: ## takes away what was installed; books stay
	rm -f $(BELOW)/bin/invdesk $(BELOW)/share/man/man1/invdesk.1 $(BELOW)/share/bash-completion/completions/invdesk
	rm -f $(BELOW)/lib/sysusers.d/invdesk.conf $(BELOW)/lib/systemd/system/invdesk.service
	rm -rf $(DOCUMENTS)

# A package of Debian, in the folder 'out'.
deb: build ## a package of Debian, in the folder 'out'
	python3 tools/make_deb.py $(PROGRAM)

# Lines per second and peak memory over 20,000 and 40,000 lines of each kind, in memory and with a file; files beside
# Python's sqlite3, a C program and the kit's sqlite alone; imports beside lines, those of counts and those of a
# command; requests over HTTP beside Python's http.server; lines with names beside lines with numbers; what a journal
# costs, and the lists that read it; and how calls of the libraries grow. 'make bench WHAT=file' times files alone;
# 'tools/bench.py --help' tells the words.
bench: build ## times the program and measures its memory; WHAT=file
	python3 tools/bench.py $(PROGRAM) $(WHAT)

# Files as Python's sqlite3 finds them, and files that are refused; files that it makes of a dump; the program killed
# amid a pipe of lines (all of it by '--kills 100 --lines 100000'); deliveries and stocktakes that Python's csv and,
# where it is there, LibreOffice wrote; files of every command, beside the same definition in Python; and the tables as
# docs/TABLES.md tells and asks them, by PostgreSQL too where a server of it is here.
file: build ## tries files, dumps, kills, imports and tables
	python3 tools/check_file.py $(PROGRAM)
	python3 tools/check_dump.py $(PROGRAM)
	python3 tools/check_kills.py $(PROGRAM)
	python3 tools/check_import.py $(PROGRAM)
	python3 tools/check_sheets.py $(PROGRAM)
	python3 tools/check_tables.py $(PROGRAM)

# The program as a server, asked by Python's http.client, by curl and by bare sockets, and killed; and with its page,
# asked for all that the page reads; and asked by the program itself, with '--at' in the place of '--db'.
http: build ## tries the service, and what its page reads
	python3 tools/check_http.py $(PROGRAM)
	python3 tools/check_site.py $(PROGRAM)
	python3 tools/check_at.py $(PROGRAM)

# The page of 'serve --page' in Chromium, which has to be here, and in Firefox where that is; as a clerk uses it, at a
# desk and on a phone; and where answers are lost, others work too, or the file fails. 'tools/make_page.py' writes the
# page into the program from the files of 'page/'.
page: build ## tries the page in Chromium and Firefox
	python3 tools/check_page.py $(PROGRAM)
	python3 tools/check_clerk.py $(PROGRAM)
	python3 tools/check_hazards.py $(PROGRAM)

# The program on the worked examples with names, on the tutorial, on the move from spreadsheets, on a recall and on
# mistakes, as a clerk asks it to stop, to check or to show a list, and beside the rules written once more in Python:
# answers, reports, lists and tables of requests that are made up, and which changed files it opens; and whether the time
# of lines grows as their square.
machine: build ## tries the program on examples, documents and lists, and beside the rules in Python
	python3 tools/check_examples.py $(PROGRAM)
	python3 tools/check_tutorial.py $(PROGRAM)
	python3 tools/check_people.py $(PROGRAM)
	python3 tools/check_lists.py $(PROGRAM)
	python3 tools/check_machine.py $(PROGRAM)
	python3 tools/check_opening.py $(PROGRAM)
	python3 tools/check_growth.py $(PROGRAM)

# What is installed and packed: the page of man, the completions as bash asks for them, the unit with the words in it,
# and the package of Debian with the program out of it.
package: build ## tries what is installed and packed
	python3 tools/check_package.py $(PROGRAM)

# The program with growths of memory refused to it, by a small C library that is loaded before it.
memory: build ## tries the program with growths of memory refused to it
	python3 tools/check_memory.py $(PROGRAM)

# The wrong bodies that the gate leaves out: each has to be refused, and says the rule that it breaks. It takes about as
# long as the gate; 'make refuse CRATES=forest' tries those of one crate, and 'make refuse RANDOM=20' twenty, chosen
# anew each time.
refuse: ## tries the wrong bodies that the gate leaves out; CRATES=forest, RANDOM=20
	python3 tools/refuse.py $(if $(RANDOM),--random $(RANDOM)) $(CRATES)

.PHONY: help try check run test build install uninstall deb bench file http page machine package memory refuse
