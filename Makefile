# The commands of this repository. README.md says what they need and print.
.DEFAULT_GOAL := run
.PHONY: run test plants long install

RT      ?= rt
PREFIX  ?= /usr/local
EXAMPLE  = try D-ABCD 60000 800 2024-03-01T08:00 2024-03-01T09:30 1
SOURCES  = crates.txt $(shell find crates -type f -not -path '*/out/*')
# how many checks run side by side, each with one job: one a processor, of which each has 5 GB of memory
JOBS     = $(shell awk -v n="$$(nproc)" '/^MemAvailable/ { m = int($$2 / 5000000); print m < 1 ? 1 : m < n ? m : n }' /proc/meminfo)

# the example: by the proved program where it is built, else unproved in a few minutes, and it says which
run:
	@if [ -x office ]; then ./office $(EXAMPLE); else \
	echo "not built yet: running unproved (make office builds the proved program)" >&2; \
	cd crates/mx_cli && $(RT) try -- $(EXAMPLE); fi

# the gate, from nothing; first the pages are held to the tree, crates to their floors, and names of one layout to where
# layouts are data; where it passes, the program that it proved and ran is left as ./office, and the transcripts are compared with what that prints, the page of the file with a file that it makes, the
# manual page with its helps, the answers of its desk with what is written, and the work of its words with bounds
test:
	@scripts/definitions --check
	@scripts/docs --check
	@scripts/floors --check
	@scripts/layout-names --check
	@RT_JOBS=$${RT_JOBS:-$(JOBS)} $(RT) ci
	@install -m 755 crates/mx_cli/out/mx_cli office
	@scripts/check-transcripts
	@scripts/file-page
	@scripts/man --check
	@scripts/check-desk
	@scripts/check-work

# the wrong bodies that are kept outside the gate: the checker has to refuse each, in rounds over a copy of the crates
plants:
	@scripts/try-plants

# the trials that take long, side by side, in 50 minutes on four cores or in MINUTES; what each found goes to
# docs/MEASURED.md
long: office
	@scripts/long $(if $(MINUTES),--minutes $(MINUTES)) $(if $(SEED),--seed $(SEED))

# the proved program alone: the crates that it stands on are proved side by side, as in the gate
office: $(SOURCES)
	cd crates/mx_cli && $(RT) all check --jobs $${RT_JOBS:-$(JOBS)} && $(RT) run -- $(EXAMPLE) > /dev/null
	install -m 755 crates/mx_cli/out/mx_cli $@

# the program and its manual page, under PREFIX
install: office
	install -d "$(DESTDIR)$(PREFIX)/bin" "$(DESTDIR)$(PREFIX)/share/man/man1"
	install -m 755 office "$(DESTDIR)$(PREFIX)/bin/office"
	install -m 644 man/office.1 "$(DESTDIR)$(PREFIX)/share/man/man1/office.1"
