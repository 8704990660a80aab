# What can be done here; `make` alone lists it.
.PHONY: help test pages divisions toolchain print_rule examine_rule console guide_rules python python_test bench compare unused
.DEFAULT_GOAL := help
# Of two runs of rt in one crate the second waits for the first.
.NOTPARALLEL:

TABLE = 0111
RULE = VA0 VA1 OR
sources = crates.txt $(shell find crates -path '*/out' -prune -o \( -name '*.rt' -o -name '*.antt' \) -print)
library = build/lib$(1).a
have_rt = command -v rt >/dev/null || { echo "needs rt, the Rattle toolchain's command, on the PATH"; exit 1; }
have_python = command -v python3 >/dev/null || { echo "needs python3 on the PATH"; exit 1; }
have_cc = command -v cc >/dev/null || { echo "needs cc, a C compiler, on the PATH"; exit 1; }
cc = cc -std=c99 -Wall -Wextra -Wpedantic -Werror -Iinclude
# Runs a C example, under valgrind where that is installed, and compares what it writes with its .expected file.
example = if command -v valgrind >/dev/null; then valgrind -q --error-exitcode=1 $(1); else echo "valgrind is not installed: $(1) runs without it" >&2; $(1); fi

help: ## list these commands
	@sed -n 's/^\([a-z_]*\):[^#]*## /\1\t/p' $(MAKEFILE_LIST) | expand -t 14

# The examples come after rt ci, which removes the libraries that earlier runs built; its count stays the last line.
test: toolchain pages divisions ## prove everything, try the must-fail edits, run the recorded cases and the examples
	@tools/progress ci rt ci
	@$(MAKE) --no-print-directory console guide_rules python_test
	@sed -n '$$s/^\([0-9]* passed, [0-9]* failed\).*/\1/p' build/ci.log

pages: ## see that version, toolchain, table of crates, citations, line lengths and the texts of must-fail edits are right
	@grep -q "^## $$(cat VERSION)" CHANGELOG.md || { echo "CHANGELOG.md does not tell of version $$(cat VERSION)"; exit 1; }
	@grep -qF "$$(cat TOOLCHAIN)" README.md || { echo "README.md does not name the toolchain, $$(cat TOOLCHAIN)"; exit 1; }
	@$(have_python)
	@python3 tools/layers.py --check && python3 tools/citations.py && python3 tools/lengths.py && python3 tools/edits.py

divisions: ## see that the code that gets or sets coefficients, with all it calls, does not divide
	@$(have_python)
	@python3 -B tools/divisions.py

toolchain: ## see that the Rattle toolchain is there, and say where it is another than the one that this was proved with
	@$(have_rt)
	@test "$$(rt version)" = "$$(cat TOOLCHAIN)" || echo "warning: proved with $$(cat TOOLCHAIN); this is $$(rt version), and its check decides" >&2

print_rule: toolchain ## print the expression of a rule table: TABLE=0111
	@printf '%s\n' '$(TABLE)' | tools/progress print_rule rt run

examine_rule: toolchain ## examine a rule against its table and say the verdict in words: TABLE=0111 RULE='VA0 VA1 OR'
	@printf '%s\n' '$(TABLE)' '$(RULE)' | tools/progress examine_rule rt run

$(call library,console) $(call library,guide_rules): $(sources)
	@tools/progress $(patsubst lib%.a,%_c,$(@F)) rt lib
	@mkdir -p build && cp crates/$(patsubst lib%.a,%_c,$(@F))/out/$(patsubst %.a,%_c.a,$(@F)) $@

console: toolchain $(call library,console) ## build the console's library and run the C example over include/console.h
	@$(have_cc)
	@mkdir -p build
	@$(cc) examples/console.c $(call library,console) -o build/console
	@$(call example,build/console) >build/console.out
	@cmp build/console.out examples/console.expected && cat build/console.out

guide_rules: toolchain $(call library,guide_rules) ## build the whole library for C and run the C example over include/guide_rules.h
	@$(have_cc)
	@if command -v c++ >/dev/null; then c++ -Wall -Wextra -Wpedantic -Werror -fsyntax-only -x c++ include/guide_rules.h; fi
	@mkdir -p build
	@$(cc) examples/guide_rules.c $(call library,guide_rules) -o build/guide_rules
	@$(call example,build/guide_rules) >build/guide_rules.out
	@cmp build/guide_rules.out examples/guide_rules.expected && cat build/guide_rules.out

python: toolchain $(call library,guide_rules) ## link build/libguide_rules.so, which python/guide_rules.py loads
	@$(have_cc)
	@mkdir -p build
	@cc -shared -Wl,--whole-archive $(call library,guide_rules) -Wl,--no-whole-archive -o build/libguide_rules.so

python_test: python ## run the Python module's tests
	@$(have_python)
	@python3 -B -m unittest discover -s python

bench: toolchain ## measure beside the original Rust and write docs/BENCHMARK.md: RUST=folder of its sources
	@bench/bench.sh "$(RUST)"

compare: ## make the recorded answers anew from the original Rust and compare: RUST=folder of its sources
	@oracle/compare.sh "$(RUST)"

unused: ## list imports that their file does not use, and laws and definitions that nothing uses
	@$(have_python)
	@python3 tools/unused.py
