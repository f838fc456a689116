# Installs the programs and their companion: make install PREFIX=/usr. A package is made below a folder of its own by DESTDIR=FOLDER.
PREFIX ?= /usr/local
DESTDIR ?=
PROGRAM ?= crates/audit_cli/out/audit_cli
ORDER ?= crates/audit_order/out/audit_order

.PHONY: install built man test

install: built
	install -d "$(DESTDIR)$(PREFIX)/bin" "$(DESTDIR)$(PREFIX)/lib/kitrevasu" "$(DESTDIR)$(PREFIX)/share/autrail" "$(DESTDIR)$(PREFIX)/share/man/man1"
	install -d "$(DESTDIR)$(PREFIX)/share/bash-completion/completions" "$(DESTDIR)$(PREFIX)/share/zsh/site-functions"
	install -m 755 "$(PROGRAM)" "$(DESTDIR)$(PREFIX)/lib/kitrevasu/audit_cli"
	install -m 644 companion/words/audit_cli "$(DESTDIR)$(PREFIX)/lib/kitrevasu/audit_cli.words"
	install -m 755 companion/installed.sh "$(DESTDIR)$(PREFIX)/bin/audit_cli"
	if [ -x "$(ORDER)" ]; then \
		install -m 755 "$(ORDER)" "$(DESTDIR)$(PREFIX)/lib/kitrevasu/audit_order" && \
		install -m 644 companion/words/audit_order "$(DESTDIR)$(PREFIX)/lib/kitrevasu/audit_order.words" && \
		install -m 755 companion/installed.sh "$(DESTDIR)$(PREFIX)/bin/audit_order" && \
		install -m 644 companion/man/audit_order.1 "$(DESTDIR)$(PREFIX)/share/man/man1/audit_order.1"; \
	fi
	install -m 755 companion/autrail "$(DESTDIR)$(PREFIX)/bin/autrail"
	install -d "$(DESTDIR)$(PREFIX)/lib/kitrevasu/autrail"
	install -m 644 companion/lib/autrail/*.py "$(DESTDIR)$(PREFIX)/lib/kitrevasu/autrail"
	install -m 644 companion/kitrevasu.rules "$(DESTDIR)$(PREFIX)/share/autrail/kitrevasu.rules"
	install -m 644 companion/man/autrail.1 "$(DESTDIR)$(PREFIX)/share/man/man1/autrail.1"
	install -m 644 companion/man/audit_cli.1 "$(DESTDIR)$(PREFIX)/share/man/man1/audit_cli.1"
	install -m 644 companion/autrail.bash "$(DESTDIR)$(PREFIX)/share/bash-completion/completions/autrail"
	install -m 644 companion/_autrail "$(DESTDIR)$(PREFIX)/share/zsh/site-functions/_autrail"
	install -d "$(DESTDIR)$(PREFIX)/share/autrail/fleet/slurm"
	install -m 644 companion/fleet/Snakefile "$(DESTDIR)$(PREFIX)/share/autrail/fleet/Snakefile"
	install -m 755 companion/fleet/host.py "$(DESTDIR)$(PREFIX)/share/autrail/fleet/host.py"
	install -m 644 companion/fleet/slurm/config.yaml "$(DESTDIR)$(PREFIX)/share/autrail/fleet/slurm/config.yaml"
	install -m 755 companion/fleet/slurm/job_state "$(DESTDIR)$(PREFIX)/share/autrail/fleet/slurm/job_state"
	install -d "$(DESTDIR)$(PREFIX)/lib/systemd/system"
	for unit in service timer; do \
		sed 's|@PREFIX@|$(PREFIX)|g' "companion/autrail-keep.$$unit" > "$(DESTDIR)$(PREFIX)/lib/systemd/system/autrail-keep.$$unit" && \
		chmod 644 "$(DESTDIR)$(PREFIX)/lib/systemd/system/autrail-keep.$$unit" || exit 1; \
	done
	@[ -x "$(ORDER)" ] || echo 'audit_order is not built, so it is not installed, and autrail asks in the order of the log: ./audit_order </dev/null builds it; then install again'

# The scripts prove and build a program if the code has changed since; a program of another place is taken as it is.
built:
	if [ "$(PROGRAM)" = crates/audit_cli/out/audit_cli ]; then ./audit_cli back 0 </dev/null >/dev/null; fi
	if [ "$(ORDER)" = crates/audit_order/out/audit_order ]; then ./audit_order </dev/null >/dev/null; fi

# The built pages are kept, so that only whoever changes them needs scdoc.
man:
	for page in autrail audit_cli audit_order; do scdoc < companion/$$page.1.scd > companion/man/$$page.1 || exit 1; done

test:
	python3 companion/tests/run.py
	python3 companion/fleet/test.py
