# A rule for make: `include pulsex.mk` in your Makefile, then `make pulsex`.
# It fails where pulsex finds a bug, with what was found as text, and keeps the report, SARIF and a page.

PULSEX ?= /opt/pulsex
PULSEX_SOURCES ?= $(wildcard src/*.c)
PULSEX_REPORT ?= pulsex-report

.PHONY: pulsex
pulsex:
	rm -rf $(PULSEX_REPORT) && mkdir -p $(PULSEX_REPORT)
	@status=0; \
	$(PULSEX)/pulsex check --json $(PULSEX_SOURCES) > $(PULSEX_REPORT)/report.json || status=$$?; \
	if [ $$status -gt 1 ]; then exit $$status; fi; \
	$(PULSEX)/view --sarif $(PULSEX_REPORT)/report.json > $(PULSEX_REPORT)/report.sarif && \
	$(PULSEX)/view --html $(PULSEX_REPORT)/report.json > $(PULSEX_REPORT)/report.html && \
	$(PULSEX)/view --lines $(PULSEX_REPORT)/report.json && \
	exit $$status
