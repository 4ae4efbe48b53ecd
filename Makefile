# run: an example, before any proof. test: the names in the documents, the merge gate, and the tests of the programs that it has linked,
# of the packages and of the examples. wrong_bodies: the wrong bodies that the gate does not try, those too that a test has to refuse, of CRATES or of all.
# rows: all rows, written with what is printed now: those of crates/rows/data played by what is not proved, those of tests/rows over RINGD
# and RINGCTL, or bin/ringd and bin/ringctl.
# docs: bin/promises.md, each promise and each wrong body, by the sources.
# bin/NAME: a proved program. bench: the times of ringctl.
# ringd: bin/ringd. serve: runs ringd on examples/ring.toml, unproved where bin/ringd is not built.
# bin/NAME.commit tells the commit that it was built of; install has it in share/ringd/commit.
# install: bin/ringd, its man page, its units, an example of settings, alerts and the package's wheel, under PREFIX, below DESTDIR.
# deb: a Debian package of bin/ringd and of what goes with it, in bin.
# fencing: a leader that is paused and wakes late is turned away, over bin/ringd.
# clients: the tests of the clients, over RINGD, or the ringd that was built here, and of the examples, their alerts among them.
# picture: the run of SCRIPT by ringctl, drawn as text and, to the file SVG, as SVG. pictures: the tests of that, and the pictures of the docs, over ringctl.
# kills: bin/ringd is killed 100 times at random moments, started again, and held to all that it told; what holds it is tried first.
# years: bin/ringd elects and retires for an hour, killed once half way: whether its memory grows; YEARS has further words of trials/years.py.
# earlier: a ringd of an earlier release, EARLIER, is killed 50 times, and bin/ringd as often on the same folders.
# short: bin/ringd under sessions of one Stand each, its memory, and elections right behind them.
# threads: bin/ringd where the system grants too few threads; as root.
# scrapes: bin/ringd asked for its health, beside 10,000 connections that ask nothing, silent ones and such with half a head.
# writeback: as root, the disk of bin/ringd refuses a page during one sync, and then the power goes.
# syncs: the system calls of bin/ringd: whether what an answer rests on was synced before.
# fuzz: both programs, given what nobody would give them; FUZZ has words of trials/fuzz.py.
# unit: as root, the units of bin/ringd in a systemd that is booted in namespaces of its own: started, stopped, refused.
# image: as root, the image of examples/Containerfile, built over a Debian that is fetched, and started.
# hosts: as root, workers on four hosts take turns at a lock, while holders are killed, paused and cut off; turns: four workers on one host, over bin/ringd.
# lost_host: as root, the host of bin/ringd, whose folder is on a disk of the network, is cut off, fenced and lost, and another one goes on.
# runbook: as root, the commands of the runbook in docs/OPERATING.md, from top to bottom, with the Debian package.
# alerts: each alert is fired by what bin/ringd tells, for promtool.
# copies: cinoweta backup copies the folder of bin/ringd under load, and each copy is started and asked.
# hangs: one sync of bin/ringd takes 20 seconds: the status port and standard error say so, and the other nodes answer.
# failed: a node of bin/ringd whose disk failed is sent 100,000 messages, and keeps none.
# starts: bin/ringd is started with standard streams closed, with few descriptors, and at other hosts; as root, beside a folder that is read only.
# faults, growths: each call of the system that a ring makes fails in turn, and each growth of the programs is refused.
# flips: each byte of the files of a ring by bin/ringd is changed, one at a time: whether a start refuses it, or what is answered then.
# full, uses: the nodes of a ring are filled and retired, again and again; many groups elect each minute for an hour.
# load: bin/ringd under load; LOAD has further words of bench/load.py.
.PHONY: run test rows wrong_bodies bench clean always
.PHONY: ringd install serve fencing clients picture pictures kills years earlier load short threads scrapes writeback syncs fuzz faults growths hangs flips failed
.PHONY: starts docs unit image copies alerts deb runbook full uses hosts turns lost_host

# The kinds of rows that look inside of nodes, and those of programs.
KINDS = node session
PROGRAM_KINDS = console ringd settings
ROWS = $(KINDS:%=crates/rows/data/%.rows)

run:
	@bench/try.sh examples/first_election.ring

test:
	@cat $(ROWS) | cmp - crates/rows/stdout
	@docs/check.py
	@must_not_compile/run.py
	@rt ci
	@RINGD=crates/ringd/out/ringd RINGCTL=crates/ringctl/out/ringctl tests/run.py

rows:
	@mkdir -p bin
	@for kind in $(KINDS); do \
	  (cd crates/rows && rt try --seconds 300 -- $$kind "$$PWD/data/$$kind.rows") > bin/rows.txt || exit 1; \
	  cp bin/rows.txt crates/rows/data/$$kind.rows; \
	done
	@cat $(ROWS) > crates/rows/stdout
	@for kind in $(PROGRAM_KINDS); do \
	  tests/play.py $$kind tests/rows/$$kind.rows > bin/rows.txt || exit 1; \
	  cp bin/rows.txt tests/rows/$$kind.rows; \
	done

docs:
	@mkdir -p bin
	@docs/promises.py > bin/promises.md

wrong_bodies:
	@wrong_bodies/run.py --all $(CRATES)

# The commit of what is here, and -dirty behind it where a file differs. No program can tell its own.
COMMIT = git describe --always --dirty --abbrev=40 --exclude='*' 2> /dev/null || echo unknown

# rt finds out itself what has to be proved anew. It then runs the program, here on the words and the input that the gate
# runs it on.
bin/%: always
	@mkdir -p bin
	cd crates/$* && rt run -- $$(cat args 2> /dev/null) < $$(ls stdin 2> /dev/null || echo /dev/null) > /dev/null
	cp crates/$*/out/$* $@
	@$(COMMIT) > $@.commit

ringd: bin/ringd

PREFIX ?= /usr/local

# What was proved and linked is installed, and no program is built: this may be run as another user.
install: shared = $(DESTDIR)$(PREFIX)/share/ringd
install: units = $(DESTDIR)$(PREFIX)/lib/systemd/system
install:
	@test -x bin/ringd || { echo "make install: bin/ringd is not there: make ringd builds it" >&2; exit 1; }
	install -D -m 755 bin/ringd $(DESTDIR)$(PREFIX)/bin/ringd
	@mkdir -p $(DESTDIR)$(PREFIX)/share/man/man8 $(units) $(shared)
	docs/man.py > $(DESTDIR)$(PREFIX)/share/man/man8/ringd.8
	sed 's|/usr/local|$(PREFIX)|' examples/ringd.service > $(units)/ringd.service
	sed -f examples/ringd@.sed $(units)/ringd.service > $(units)/ringd@.service
	install -m 755 examples/wait_live.sh $(shared)
	sed 's|/usr/local|$(PREFIX)|' examples/alerts.yml > $(shared)/alerts.yml
	install -m 644 examples/ringd.toml examples/grafana.json docs/OPERATING.md $(shared)
	cat bin/ringd.commit > $(shared)/commit 2> /dev/null || echo unknown > $(shared)/commit
	python3 clients/python/wheel_backend.py $(shared)

# lintian tells what is wrong with the package, where it is there.
deb:
	@test -x bin/ringd || { echo "make deb: bin/ringd is not there: make ringd builds it" >&2; exit 1; }
	@packaging/deb.sh bin
	@if command -v lintian > /dev/null; then lintian --fail-on error --allow-root bin/ringd_*.deb; \
	else echo "make deb: lintian is not there: the package is not looked at"; fi

serve:
	@bench/serve.sh

fencing:
	@examples/fencing/run.py

clients:
	@tests/run.py clients/python clients/go examples

picture:
	@pictures/draw.sh "$(SCRIPT)" $(if $(SVG),"$(SVG)")

pictures: bin/ringctl
	@tests/run.py pictures

kills:
	@python3 -m unittest discover -s trials
	@trials/kill.py --rounds 100

years: bin/ringd
	@trials/years.py --ringd bin/ringd $(YEARS)

earlier: bin/ringd
	@trials/earlier.py --earlier "$(EARLIER)"

bench: bin/ringctl
	@bench/measure.sh bin/ringctl

short: bin/ringd
	@trials/short.py --ringd bin/ringd

threads: bin/ringd
	@trials/threads.py --ringd bin/ringd

full: bin/ringd
	@trials/full.py
	@trials/full.py --capacity 65536 --times 3

uses: bin/ringd
	@trials/uses.py $(USES)

scrapes: bin/ringd
	@trials/scrapes.py --ringd bin/ringd
	@trials/scrapes.py --ringd bin/ringd --half

writeback: bin/ringd
	@trials/writeback.py --ringd bin/ringd

syncs: bin/ringd
	@trials/makes.py --ringd bin/ringd
	@trials/syncs.py --ringd bin/ringd

failed: bin/ringd
	@trials/failed.py $(FAILED)

hangs: bin/ringd
	@trials/hangs.py

starts: bin/ringd
	@trials/starts.py

unit: bin/ringd
	@trials/unit.sh

image: bin/ringd
	@trials/image.sh

runbook: bin/ringd
	@trials/runbook.py

hosts: bin/ringd
	@trials/hosts.py --ringd bin/ringd

lost_host: bin/ringd
	@trials/lost_host.py --ringd bin/ringd

turns: bin/ringd
	@examples/turns.py --ringd bin/ringd

alerts: bin/ringd
	@trials/alerts.py --ringd bin/ringd

copies: bin/ringd
	@trials/copies.py

fuzz: bin/ringctl bin/ringd
	@trials/fuzz.py $(FUZZ)

faults: bin/ringd
	@trials/faults.py

growths: bin/ringctl bin/ringd
	@for crate in $$(trials/growths.py --crates); do (cd crates/$$crate && rt test > /dev/null) || exit 1; done
	@trials/growths.py

flips: bin/ringd
	@trials/flips.py

load: bin/ringd
	@bench/load.py --ringd bin/ringd $(LOAD)

clean:
	rm -rf bin crates/*/out
